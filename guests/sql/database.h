/* Connections to the database. A new one has a write-ahead log: readers and the one who writes don't wait for each other. What is written
   stands in the log, and goes from there into the database now and then; the log begins anew where nobody reads what is in it. */
#ifndef DATABASE_H
#define DATABASE_H

#include <stdint.h>

#include "sqlite3.h"

/* Plays a journal or a log back that is left there, and gives a new database its log. One that can't be read answers its clients so. */
void database_start(void);

/* Answers as SQLite does. Before a connection's first statement it is told how large the database may be, and what it may not do. */
int database_open(sqlite3 **database);
int database_tell(sqlite3 *database);

/* Whether the database has a log, and whether that has little room left as far as is known. */
int log_is_there(void);
int log_is_tight(void);

/* Brings all of the log into the database, so that it begins anew. Answers as SQLite does: SQLITE_BUSY where one reads in it. */
int log_empty(sqlite3 *database);

#endif
