/* A database as statements that make it again, as the shell of SQLite has them (.dump): a table and its rows, one after another, and then
   views, triggers and indexes. */
#ifndef DUMP_H
#define DUMP_H

#include <stdint.h>

#include "sqlite3.h"
#include "text.h"

/* Takes a piece of the text, which is gone then. Answers 0 where no more is wanted. */
typedef int piece_taker(void *with, struct text *piece);

/* Gives the statements, piece by piece. The connection has a transaction that reads. Answers as SQLite does; SQLITE_ABORT where no more was
   wanted. */
int dump(sqlite3 *database, piece_taker *take, void *with);

#endif
