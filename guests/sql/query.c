#include "query.h"

#include <string.h>

/* Whether the query goes on. */
enum { STOPS, GOES_ON };

static void drop_statement(struct query *query) {
    sqlite3_finalize(query->prepared);
    query->prepared = NULL;
}

void query_drop(struct query *query) {
    drop_statement(query);
    sqlite3_free(query->text);
    query->text = NULL;
}

static int is_over(struct session *session, struct query *query) {
    query_drop(query);
    session_rest(session);
    query->teller->over(session);
    return STOPS;
}

void query_fail(struct session *session, struct query *query, const struct failure *failure) {
    drop_statement(query);
    has_failed(session, query->statement.kind);
    query->teller->failed(session, failure);
    is_over(session, query);
}

static int fails(struct session *session, struct query *query, const struct failure *failure) {
    query_fail(session, query, failure);
    return STOPS;
}

static int refuse(struct session *session, struct query *query, const char *code, const char *why) {
    struct failure failure;
    set_failure(&failure, code, why);
    session->was_block = is_in_block(session);
    return fails(session, query, &failure);
}

static int waits(struct session *session) {
    session_wait(session);
    return STOPS;
}

/* What was said since the last transaction is taken back. */
static int begin_anew(struct session *session, struct query *query) {
    drop_statement(query);
    give_up_implicit(session);
    text_cut(query->answer, query->again_answered);
    query->ended = query->again_ended;
    query->rest = query->again;
    query->is_eager = 1;
    return waits(session);
}

static int comes_to(struct session *session, struct query *query, enum outcome outcome, const struct failure *failure) {
    return outcome == WAITS ? waits(session) : outcome == COLLIDES ? begin_anew(session, query) : fails(session, query, failure);
}

/* A statement has ended. */
static int goes_on(struct session *session, struct query *query, int64_t rows) {
    query->teller->ended(session, &query->statement, query->prepared, rows);
    drop_statement(query);
    query->ended++;
    if (sqlite3_get_autocommit(session->database)) {
        query->again = query->rest;
        query->again_answered = query->answer->length;
        query->again_ended = query->ended;
        session_settle(session);
    }
    return GOES_ON;
}

static int end(struct session *session, struct query *query) {
    struct failure failure;
    enum outcome outcome = end_implicit(session, &failure);
    query->statement.kind = NOTHING;
    return outcome == ENDED ? is_over(session, query) : comes_to(session, query, outcome, &failure);
}

static int next_statement(struct session *session, struct query *query) {
    struct failure failure;
    const char *from = query->rest;
    if (is_blank(from))
        return end(session, query);
    read_statement(from, &query->statement);
    if (!is_let_in(session, query->statement.kind))
        return refuse(session, query, "25P02", "current transaction is aborted, commands ignored until end of transaction block");
    if (query->statement.kind == COPY)
        return refuse(session, query, "0A000", "COPY stands alone in its query, and is of PostgreSQL's protocol");
    int is_done = is_noted(session, &query->statement, &failure);
    if (failure.code != NULL)
        query->teller->warned(session, &failure);
    if (is_done) {
        query->rest = query->statement.end;
        return goes_on(session, query, 0);
    }
    enum outcome outcome = prepare(session, &query->statement, &query->prepared, &query->rest, &failure);
    if (outcome != ENDED) {
        query->rest = from;
        return comes_to(session, query, outcome, &failure);
    }
    if (set_setting(session, &query->statement, &failure) != ENDED)
        return fails(session, query, &failure);
    if (query->prepared == NULL)
        return query->statement.kind <= PLAIN ? GOES_ON : goes_on(session, query, 0);
    if (query->only_reads && !(sqlite3_stmt_readonly(query->prepared) && query->statement.kind != BEGIN))
        return refuse(session, query, "25006", "this may only read: what changes the database is asked by POST");
    return GOES_ON;
}

/* Whether the statement belongs to a transaction with those after it. */
static int is_with_others(const struct query *query) {
    enum kind kind = query->statement.kind;
    return (kind == PLAIN || kind == SHOW) && !is_outside(&query->statement) && (!is_blank(query->rest) || query->statement.more != NULL);
}

/* The next of several that SQLite is told in the statement's place. */
static int go_on_with_more(struct session *session, struct query *query) {
    struct failure failure;
    drop_statement(query);
    enum outcome outcome = prepare_more(session, &query->statement, &query->prepared, &failure);
    if (outcome == ENDED)
        return GOES_ON;
    query->rest = query->statement.begin;
    return comes_to(session, query, outcome, &failure);
}

static int run_statement(struct session *session, struct query *query) {
    struct failure failure;
    int64_t rows;
    if (is_with_others(query) && begin_implicit(session, query->is_eager) == WAITS)
        return waits(session);
    enum outcome outcome = run(session, query->prepared, query->answer, query->teller->take_row, &rows, &failure);
    if (outcome != ENDED)
        return comes_to(session, query, outcome, &failure);
    if (query->statement.more != NULL)
        return go_on_with_more(session, query);
    has_ended(session, query->statement.kind);
    return goes_on(session, query, rows);
}

void query_go_on(struct session *session, struct query *query) {
    int answer = GOES_ON;
    while (answer == GOES_ON)
        answer = query->prepared == NULL ? next_statement(session, query) : run_statement(session, query);
}

void query_start(struct session *session, struct query *query, const char *text, uint32_t length) {
    struct failure failure;
    session_begin(session);
    query->text = sqlite3_malloc64((uint64_t)length + 1);
    query->prepared = NULL;
    query->ended = query->again_ended = 0;
    query->is_eager = 0;
    query->again_answered = query->answer->length;
    query->statement.kind = NOTHING;
    if (query->text == NULL || !session_open(session)) {
        session->was_block = is_in_block(session);
        set_failure(&failure, "53200", "out of memory");
        query_fail(session, query, &failure);
        return;
    }
    memcpy(query->text, text, length);
    query->text[length] = '\0';
    query->rest = query->again = query->text;
    query_go_on(session, query);
}
