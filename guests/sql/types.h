/* The types of parameters for which a client names none: those of what stands beside them in a statement's text, since SQLite's own
   parameters have no types. */
#ifndef TYPES_H
#define TYPES_H

#include <stdint.h>

#include "sqlite3.h"

/* Writes the types of so many parameters, from $1 on, by their numbers in PostgreSQL's catalog: of CAST($1 AS type) and $1::type the type,
   of a column that it is compared to, added to, set to or inserted into that column's declared one, of LIMIT and OFFSET a whole number, and
   of all else text. */
void types_of_parameters(sqlite3 *database, const char *text, uint32_t *types, int count);

#endif
