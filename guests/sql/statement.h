/* What a statement is, as far as its words tell: those of PostgreSQL's that SQLite spells otherwise or doesn't have, and how its end is
   told. */
#ifndef STATEMENT_H
#define STATEMENT_H

#include <stdint.h>

enum kind {
    NOTHING,     /* blanks and comments alone */
    PLAIN,       /* for SQLite, as it stands */
    BEGIN,       /* a transaction begins: BEGIN, START TRANSACTION */
    COMMIT,      /* and ends: COMMIT, END */
    ROLLBACK,    /* or is given up: ROLLBACK, ABORT */
    SAVEPOINT,
    ROLLBACK_TO, /* a savepoint */
    SET,         /* a setting: SET, RESET */
    SHOW,
    DISCARD,     /* what was prepared: DISCARD, DEALLOCATE ALL */
    DEALLOCATE,  /* one that was */
    COPY,        /* rows to the client or from him */
    PASSED,      /* there is nothing to do for it */
};

struct statement {
    enum kind kind;
    const char *begin, *end; /* of its text; `end` is after its semicolon, or at the text's end */
    const char *sql;         /* what SQLite is told in its place, or NULL */
    const char *more;        /* and is told after that, or NULL */
    char tag[32];            /* how its end is told, but for a count of rows */
    int is_counted;          /* whether that has one */
    char name[64];           /* of the setting or of what was prepared */
    char value[32];          /* that is to be set */
    char show[160];          /* the question that SHOW is */
    int is_default, is_local; /* it is to be as at the start; until the transaction's end */
};

/* Reads the first statement of a text. */
void read_statement(const char *text, struct statement *statement);

/* After blanks and comments; and after a string, a quoted name or a comment that begins here, or the same place. */
const char *after_blanks(const char *at);
const char *after_quoted(const char *at);

/* Whether there is nothing but blanks, comments and semicolons. */
int is_blank(const char *text);

/* Whether it only sets something up, outside of all transactions: PRAGMA, ATTACH, DETACH or VACUUM. */
int is_outside(const struct statement *statement);

#endif
