/* The whole database, as a client gets it over HTTP: one transaction reads it, while others write, and what it takes in memory doesn't grow
   with it. As a file it has a length and a sum before its first byte; as statements it goes in chunks (RFC 9112). What breaks off ends the
   connection, so that the client sees that it isn't whole. */
#ifndef WHOLE_H
#define WHOLE_H

#include "pages.h"
#include "session.h"
#include "work.h"

enum form { NO_FORM, AS_FILE, AS_SQL };

struct whole {
    struct session *session;
    enum form form;
    struct pages pages;
    uint32_t sum;
    int is_in_chunks;
};

/* Begins to read, and finds the sum of a file. WAITS: it is to be tried again when a lock has been given back. */
enum outcome whole_begin(struct session *session, enum form form, struct whole *whole, struct failure *failure);

/* How many bytes the file has. */
uint64_t whole_length(const struct whole *whole);

/* Says all of it, and ends the transaction. Answers whether all was said. */
int whole_say(struct whole *whole);

/* Ends the transaction. */
void whole_end(struct whole *whole);

#endif
