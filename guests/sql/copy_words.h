/* The words of COPY, as PostgreSQL 15 has them, also those of before version 9 (https://www.postgresql.org/docs/15/sql-copy.html). */
#ifndef COPY_WORDS_H
#define COPY_WORDS_H

#include <stdint.h>

#include "work.h"

#define MOST_NULL 64

/* How rows are written. */
struct copy_form {
    enum { AS_TEXT, AS_CSV, AS_BINARY } kind;
    enum { NO_HEADER, HAS_HEADER, MATCHES_HEADER } header;
    char delimiter, quote, escape;
    char null[MOST_NULL]; /* what stands for no value */
    uint32_t null_length;
    /* Lists of columns, as they stand after their parenthesis, '*' for all, or NULL. */
    const char *quoted, *not_null, *also_null;
};

struct copy_words {
    int is_out;          /* TO STDOUT; otherwise FROM STDIN */
    char table[64];      /* or, where it is empty, */
    const char *query;   /* a query, of so many bytes */
    uint32_t query_length;
    const char *columns; /* those that are named, after their parenthesis, or NULL */
    struct copy_form form;
};

/* Reads a statement that begins with COPY, up to its semicolon. What is read lies in its text. Answers whether it is one that is served. */
int read_copy(const char *text, struct copy_words *words, struct failure *failure);

/* The next name of such a list, and 0 at its end. */
int next_listed(const char **list, char name[64]);

/* Whether a list has a name. */
int is_listed(const char *list, const char *name);

#endif
