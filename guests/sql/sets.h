/* PostgreSQL's functions that make rows, as tables: unnest, generate_series, generate_subscripts and pg_partition_ancestors. What their
   columns are called stands in the tables' names, as in "unnest colid arridx": of each value, and of its number, from 1 on, or - where
   that isn't asked for. */
#ifndef SETS_H
#define SETS_H

#include "sqlite3.h"

/* Makes the table of a name on a connection, unless it is there. Answers whether there was memory. */
int set_make(sqlite3 *database, const char *name);

#endif
