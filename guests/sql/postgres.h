/* SQL over PostgreSQL's protocol, version 3.0 (https://www.postgresql.org/docs/15/protocol.html), so that psql, pgbench and drivers are
   clients. */
#ifndef POSTGRES_H
#define POSTGRES_H

#include "session.h"

extern const struct service postgres;

#endif
