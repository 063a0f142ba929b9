/* COPY of PostgreSQL's protocol: the rows of a table or a query as bytes to the client, or those that he has into a table. It stands
   alone in its query. What comes in is one transaction, or part of the client's own: all rows are kept or none. */
#ifndef COPY_H
#define COPY_H

#include "copy_rows.h"
#include "copy_words.h"
#include "rows.h"
#include "session.h"
#include "work.h"

struct copy {
    enum {
        NO_COPY,
        BEGINS,     /* its statement came */
        TAKES_ROWS, /* it lets the client send */
        HAS_ROWS,   /* some that came are to be written */
        ENDS,       /* the client has sent all */
    } stage;
    char *text;               /* of the statement, in which `words` lie */
    struct copy_words words;
    struct copy_columns columns;
    sqlite3_stmt *prepared;
    struct field *fields;     /* of a row that comes */
    uint32_t *types;          /* of columns that go in binary, */
    uint8_t *formats;         /* that they do, */
    struct columns binary;    /* and what is known of their values */
    struct text rows;         /* what came or is to be said, and isn't dealt with */
    uint32_t done;            /* so many bytes of it are */
    struct row_finder finder;
    uint32_t row;             /* bytes of the one at hand */
    int is_cut;               /* it is the last one, and has no end */
    int is_split;             /* into its fields, which are yet to be written */
    int64_t count;            /* of rows */
    int64_t line;             /* of what came */
    int is_ended;             /* a mark said that no more is taken */
    int is_signed;            /* what stands before the rows of the binary format came */
};

/* The protocol's: what a session has of this, and that it is ready. */
struct copy *copy_of(struct session *session);
void say_ready(struct session *session);

/* Begins with a statement. */
void copy_start(struct session *session, struct copy *copy, const char *text, uint32_t length);

/* Goes on where it waited. */
void copy_go_on(struct session *session, struct copy *copy);

/* Takes a message of the client's, while rows are taken. */
void copy_take(struct session *session, struct copy *copy, uint8_t type, const char *bytes, uint32_t count);

/* Ends it by a failure, or without a word. */
void copy_fail(struct session *session, struct copy *copy, const struct failure *failure);
void copy_drop(struct copy *copy);

#endif
