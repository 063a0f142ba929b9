/* Statements at work for a session: one that finds the database locked waits where its transaction has no lock yet, and fails as one that
   can't be serialized where it has. As in PostgreSQL, a transaction in which a statement failed can only be rolled back. */
#ifndef WORK_H
#define WORK_H

#include "session.h"
#include "statement.h"

#define MOST_WHY 400

/* Why a statement failed: PostgreSQL's code of five characters (SQLSTATE), and words. */
struct failure {
    const char *code;
    char why[MOST_WHY];
};

enum outcome {
    ENDED,
    WAITS,  /* it is to be tried again when a lock has been given back; nothing has come of it */
    COLLIDES, /* the same, but the transaction that was begun for it and others stands in the way, and must be begun anew */
    FAILED,
};

void set_failure(struct failure *failure, const char *code, const char *why);

/* Why a session was stopped. */
void stop_failure(const struct session *session, struct failure *failure);

/* Sets what SET, RESET or DISCARD ALL names, where it is one of these and that is something here. */
enum outcome set_setting(struct session *session, const struct statement *statement, struct failure *failure);

/* Compiles a statement, or what SQLite is told in its place; NULL where nothing is to run. `rest` is what comes after it. */
enum outcome prepare(struct session *session, struct statement *statement, sqlite3_stmt **prepared, const char **rest,
                     struct failure *failure);

/* Compiles the next of several that SQLite is told in a statement's place. */
enum outcome prepare_more(struct session *session, struct statement *statement, sqlite3_stmt **prepared, struct failure *failure);

/* Who gets the rows. */
typedef void row_taker(struct session *session, sqlite3_stmt *prepared, int64_t number);

/* Runs a compiled statement to its end. Where it doesn't end `answer`, into which its rows go, is as before. */
enum outcome run(struct session *session, sqlite3_stmt *prepared, struct text *answer, row_taker *take_row, int64_t *rows,
                 struct failure *failure);

/* What `run` and `prepare` don't see to: how a statement's kind changes the transaction. */

/* Whether the client's own transaction is open, or failed and not yet ended. */
int is_in_block(const struct session *session);

/* Whether a failed transaction lets this statement in. */
int is_let_in(const struct session *session, enum kind kind);

/* Begins the transaction of several statements, unless one is open; `is_eager`: as one that writes, after others stood in its way. */
enum outcome begin_implicit(struct session *session, int is_eager);

/* Begins a transaction for many rows to come, or has the client's own be one that writes, where it has done nothing yet: it has the whole
   log, unless somebody reads there. */
enum outcome begin_load(struct session *session);

/* Ends it. COLLIDES: it didn't come about, for want of room that is there where it is begun anew; `failure` says so. */
enum outcome end_implicit(struct session *session, struct failure *failure);

/* Gives it up, to begin anew. */
void give_up_implicit(struct session *session);

/* After a statement of this kind has ended, and after one failed. */
void has_ended(struct session *session, enum kind kind);
void has_failed(struct session *session, enum kind kind);

/* Whether nothing is to run for a statement, since it is one of a transaction's words at a time at which that has only to be noted. Its tag
   says then what it came to, and `warning` has PostgreSQL's warning, or no code. */
int is_noted(struct session *session, struct statement *statement, struct failure *warning);

#endif
