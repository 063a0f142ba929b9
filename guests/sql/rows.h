/* Rows and columns as PostgreSQL's protocol has them. SQLite's values have types of their own, so a column's type is that of all its
   values: whole numbers, floating point numbers where one of them is, bytes, or text; of a column without values it is the declared one. */
#ifndef ROWS_H
#define ROWS_H

#include "sqlite3.h"
#include "text.h"

/* Types, by their numbers in PostgreSQL's catalog. */
enum {
    BOOL = 16, BYTEA = 17, INT8 = 20, INT2 = 21, INT4 = 23, TEXT = 25, OID = 26, FLOAT4 = 700, FLOAT8 = 701, INT2_ARRAY = 1005,
    TEXT_ARRAY = 1009, INT8_ARRAY = 1016, NUMERIC = 1700,
};

/* What is known of the columns of an answer. */
struct columns {
    struct text seen;      /* a byte for each column: bits of the values that came */
    const uint8_t *binary; /* a byte for each column: whether it is asked for in binary; NULL: none is */
    const uint32_t *told;  /* the types that the client was told before, which hold then; NULL: it wasn't */
    int is_mixed;          /* a column in binary has values of more than one type, or not of the one that was told */
    int is_changed;        /* there are other columns than at the beginning: the tables have changed */
};

/* The type of a declaration, as in CREATE TABLE, which may be NULL; and that by which a column was declared. */
uint32_t type_of_declaration(const char *declared);
uint32_t declared_type(sqlite3_stmt *prepared, int column);

/* Begins an answer of a statement. */
void columns_start(struct columns *columns, sqlite3_stmt *prepared, const uint8_t *binary, const uint32_t *told);
void columns_drop(struct columns *columns);

/* The type of a column after the rows that came. */
uint32_t type_of_column(const struct columns *columns, sqlite3_stmt *prepared, int column);

/* A row. */
void say_row(struct text *out, sqlite3_stmt *prepared, struct columns *columns);

/* The columns, with the types so far, and with new ones in their place. */
uint32_t say_columns(struct text *out, sqlite3_stmt *prepared, const struct columns *columns);
void retype_columns(struct text *out, uint32_t at, sqlite3_stmt *prepared, const struct columns *columns);

#endif
