/* A text of one statement after another, as a client asks it. As in PostgreSQL, several of them that are in no transaction of the client's
   are one: all or none of them come about. Where another client's transaction stands in its way it is given up and begun anew, of which
   nobody was told anything. */
#ifndef QUERY_H
#define QUERY_H

#include "session.h"
#include "statement.h"
#include "work.h"

struct query;

/* Who is told what comes of it. */
struct teller {
    row_taker *take_row;
    /* A statement has ended; `prepared` is NULL where nothing ran. */
    void (*ended)(struct session *session, const struct statement *statement, sqlite3_stmt *prepared, int64_t rows);
    void (*warned)(struct session *session, const struct failure *warning);
    void (*failed)(struct session *session, const struct failure *failure);
    /* The query is over, and gone. */
    void (*over)(struct session *session);
};

struct query {
    const struct teller *teller;
    struct text *answer;       /* what is said of it */
    int only_reads;            /* statements that change the database are refused */
    char *text;                /* all of it; NULL: none runs */
    const char *rest;          /* after the statement that runs */
    struct statement statement;
    sqlite3_stmt *prepared;    /* the statement that runs, or NULL */
    uint32_t ended;            /* how many statements have */
    /* Where it begins anew: after its last transaction. */
    const char *again;
    uint32_t again_answered, again_ended;
    int is_eager;              /* it has had to begin anew */
};

/* Begins a query, and goes on with it until it is over or waits. Without memory it fails. */
void query_start(struct session *session, struct query *query, const char *text, uint32_t length);
void query_go_on(struct session *session, struct query *query);

/* Ends it by a failure, or without a word. */
void query_fail(struct session *session, struct query *query, const struct failure *failure);
void query_drop(struct query *query);

#endif
