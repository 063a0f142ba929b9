/* The values that a client of PostgreSQL's protocol gives for a statement's parameters. */
#ifndef PARAMETERS_H
#define PARAMETERS_H

#include <stdint.h>

#include "sqlite3.h"

/* A value: its type's number in PostgreSQL's catalog (0: none was named), and its bytes, or NULL. */
struct value {
    uint32_t type;
    int is_binary;
    const uint8_t *bytes;
    uint32_t count;
};

/* Which value stands at a place (from 1 on) of a compiled statement, from 1 on: $2 is the second wherever it stands. */
int number_of_place(sqlite3_stmt *prepared, int place);

/* How many values a compiled statement takes. */
int parameters_of(sqlite3_stmt *prepared);

/* Binds a value to a place. Answers NULL, or the code of why it can't be. */
const char *bind_value(sqlite3_stmt *prepared, int place, const struct value *value);

#endif
