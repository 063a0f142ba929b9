/* What ../server/server.c does at boot, what then listens, and what else its loop does: of the database. */
#ifndef GUEST_H
#define GUEST_H

#include "connections.h"
#include "counter.h"
#include "door.h"
#include "session.h"

/* Reads the disk, and plays a journal back that is left there. Answers whether the disk can be used. */
int guest_start(void);

static inline void guest_listen(void) {
    connections_start();
#ifdef COUNTER
    counter_start();
#endif
}

static inline void guest_poll(void) {
    connections_poll();
    sessions_poll();
    door_poll();
}

#endif
