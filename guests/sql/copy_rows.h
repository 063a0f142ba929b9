/* Rows of COPY as bytes: text, CSV and binary (https://www.postgresql.org/docs/15/sql-copy.html#id-1.9.3.55.9). */
#ifndef COPY_ROWS_H
#define COPY_ROWS_H

#include <stdint.h>

#include "copy_words.h"
#include "sqlite3.h"
#include "text.h"

struct field {
    const char *at; /* NULL: no value */
    uint32_t length;
};

/* The columns, in the order in which they are copied. */
struct copy_columns {
    int count;
    struct copy_column {
        char name[64];
        uint32_t type;  /* in PostgreSQL's catalog, of its declaration */
        int is_truth;   /* it was declared so, and has numbers */
        int is_quoted, is_not_null, is_also_null;
    } *of;
};

/* How far the bytes that came have been looked at for the end of a row. */
struct row_finder {
    uint32_t at;
    int is_in_quotes, is_after_escape;
};

/* How many bytes the first row of so many bytes has, with its end; 0 where it hasn't come whole. Asked again with more bytes it goes on
   where it stood. */
uint32_t find_row(struct row_finder *finder, const struct copy_form *form, const char *bytes, uint32_t count);

/* How many bytes of a row its end has: 1 or 2, or 0 where there is none. */
uint32_t end_of_row(const char *row, uint32_t length);

/* Where the mark stands in a row, without its end, after which no more is taken; in text that may be behind its values. */
#define NO_MARK UINT32_MAX
uint32_t find_end_mark(const struct copy_form *form, const char *row, uint32_t length);

/* Splits a row, without its end, into fields. What stands in them is written over the row. Answers NULL, or why it can't be. */
const char *read_row(const struct copy_form *form, const struct copy_columns *columns, char *row, uint32_t length, struct field *fields);

/* A row of a statement's, or the names of its columns, as a row with its end. */
void write_row(struct text *out, const struct copy_form *form, const struct copy_columns *columns, sqlite3_stmt *prepared);
void write_names(struct text *out, const struct copy_form *form, const struct copy_columns *columns);

#endif
