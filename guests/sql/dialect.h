/* Statements that PostgreSQL has and SQLite doesn't, or spells otherwise: those that pgbench, pg_dump and drivers send by themselves. */
#ifndef DIALECT_H
#define DIALECT_H

#include "statement.h"
#include "text.h"

/* Writes what SQLite is told in a statement's place, with a zero behind it, and has the statement say so. Several statements may stand
   there. What stands as it is stays so. Without memory the text is full. */
void spell(struct statement *statement, struct text *to);

#endif
