/* What server.c does at boot, what then listens, and what else its loop does: of the web server. Another guest that stands on server.c has
   a file of this name earlier on the compiler's path. */
#ifndef GUEST_H
#define GUEST_H

#include "files.h"
#include "lwip/apps/httpd.h"

/* Reads the disk. Answers whether it can be used. */
static inline int guest_start(void) { return files_start(); }

static inline void guest_listen(void) { httpd_init(); }

static inline void guest_poll(void) {}

#endif
