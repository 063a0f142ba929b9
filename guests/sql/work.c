#include "work.h"

#include <string.h>

#include "database.h"
#include "dialect.h"
#include "locks.h"
#include "postgres_sql.h"

/* The first words are PostgreSQL's, by which programs know it. */
#define COLLISION "could not serialize access due to concurrent update: another client writes, and this transaction has begun to read"

void set_failure(struct failure *failure, const char *code, const char *why) {
    failure->code = code;
    sqlite3_snprintf(MOST_WHY, failure->why, "%s", why);
    /* A character that was cut in two is left out. */
    size_t length = strlen(failure->why);
    if (length == MOST_WHY - 1) {
        while (length > 0 && (failure->why[length - 1] & 0xc0) == 0x80)
            length--;
        failure->why[length > 0 ? length - 1 : 0] = '\0';
    }
}

/* The codes of what SQLite tells in words alone. */
static const char *code_of_words(const char *why) {
    static const char *const codes[][2] = {
        {"no such table", "42P01"},      {"no such view", "42P01"},      {"no such column", "42703"}, {"no such function", "42883"},
        {"ambiguous column", "42702"},   {"already exists", "42P07"},    {"no such index", "42704"},  {"no such savepoint", "3B001"},
        {"has no column named", "42703"}, {"syntax error", "42601"},     {"incomplete input", "42601"}, {"unrecognized token", "42601"},
        {"parser stack", "54001"},       {"wrong number of arg", "42883"}, {"within a transaction", "25001"}, {"overflow", "22003"},
        {"too large", "54001"},          {"too many", "54000"},          {"too complex", "54001"},
        {"malformed JSON", "22P02"},     {"JSON path error", "42601"},   {"JSON cannot hold BLOB", "22023"},
        {"values were supplied", "42601"}, {"values for ", "42601"},     {"number of result columns", "42601"},
        {"number of terms", "42601"},    {"columns assigned", "42601"},  {"sub-select returns", "42601"}, {"row value", "42601"},
        {"misuse of aggregate", "42803"}, {"HAVING clause", "42803"},    {"misuse of window", "42P20"},  {"term out of range", "42P10"},
        {"duplicate column", "42701"},   {"duplicate WITH", "42712"},    {"no such collation", "42704"}, {"no such trigger", "42704"},
        {"no such database", "3D000"},   {"no such module", "42704"},    {"foreign key mismatch", "42830"},
        {"one primary key", "42P16"},    {"a view", "42809"},            {"use DROP ", "42809"},         {"may not be dropped", "42501"},
        {"may not be altered", "42501"}, {"may not be modified", "42501"}, {"reserved for internal", "42939"},
        {"step size", "22023"},          {"ESCAPE expression", "22019"},  {"ON CONFLICT clause", "42P10"}, {"circular reference", "42P19"},
    };
    for (unsigned i = 0; i < sizeof codes / sizeof codes[0]; i++)
        if (strstr(why, codes[i][0]) != NULL)
            return codes[i][1];
    return "42000";
}

static const char *code_of_constraint(int said) {
    switch (said) {
    case SQLITE_CONSTRAINT_UNIQUE:
    case SQLITE_CONSTRAINT_PRIMARYKEY:
    case SQLITE_CONSTRAINT_ROWID: return "23505";
    case SQLITE_CONSTRAINT_NOTNULL: return "23502";
    case SQLITE_CONSTRAINT_CHECK: return "23514";
    case SQLITE_CONSTRAINT_FOREIGNKEY: return "23503";
    case SQLITE_CONSTRAINT_TRIGGER: return "P0001";
    default: return "23000";
    }
}

/* PostgreSQL's code for what SQLite said. */
static const char *code_of(int said, const char *why) {
    switch (said & 0xff) {
    case SQLITE_BUSY:
    case SQLITE_LOCKED: return "40001";
    case SQLITE_CONSTRAINT: return code_of_constraint(said);
    case SQLITE_FULL: return "53100";
    case SQLITE_NOMEM: return "53200";
    case SQLITE_TOOBIG: return "54000";
    case SQLITE_INTERRUPT: return "57014";
    case SQLITE_MISMATCH: return "42804";
    case SQLITE_READONLY: return "25006";
    case SQLITE_AUTH: return "42501";
    case SQLITE_IOERR:
    case SQLITE_CANTOPEN: return "58030";
    case SQLITE_CORRUPT:
    case SQLITE_NOTADB: return "XX001";
    case SQLITE_ERROR: return code_of_words(why);
    default: return "XX000";
    }
}

void stop_failure(const struct session *session, struct failure *failure) {
    static const char *const whys[][2] = {
        [NOT_STOPPED] = {"57014", "canceling statement"},
        [CANCELLED] = {"57014", "canceling statement due to user request"},
        [TOOK_TOO_LONG] = {"57014", "canceling statement due to statement timeout"},
        [WAITED_TOO_LONG] = {"55P03", "canceling statement due to lock timeout"},
        [WAS_IDLE] = {"25P03", "terminating connection due to idle-in-transaction timeout"},
    };
    set_failure(failure, whys[session->stop][0], whys[session->stop][1]);
}

#define NOT_ALLOWED "not allowed here: no file can be attached, and some settings of the database's can't be set"

static enum outcome fails(struct session *session, int said, struct failure *failure) {
    const char *why = sqlite3_errmsg(session->database);
    if ((said & 0xff) == SQLITE_INTERRUPT)
        stop_failure(session, failure);
    else
        set_failure(failure, code_of(said, why), (said & 0xff) == SQLITE_AUTH ? NOT_ALLOWED : why);
    return FAILED;
}

static void tell(struct session *session, const char *sql) { sqlite3_exec(session->database, sql, NULL, NULL, NULL); }

/* What there was before something was tried. */
struct before {
    int had, was_open;
    uint32_t lowered, given;
};

static struct before before_of(const struct session *session) {
    return (struct before){sqlite3_txn_state(session->database, NULL), !sqlite3_get_autocommit(session->database), lock_lowered(),
                           session->turn.given};
}

/* Locks that were taken and given back within one turn are no news to those that wait. */
static void leave_no_news(const struct session *session, const struct before *before) {
    if (before->had == SQLITE_TXN_NONE && before->given == session->turn.given)
        lock_forget_lowered(before->lowered);
}

/* What a statement that found the database locked is to do. */
static enum outcome locked(struct session *session, const struct before *before, struct failure *failure) {
    int is_open = !sqlite3_get_autocommit(session->database);
    leave_no_news(session, before);
    if (!before->was_open || (is_open && before->had != SQLITE_TXN_READ))
        return WAITS;
    if (session->is_implicit)
        return COLLIDES;
    set_failure(failure, "40001", COLLISION);
    return FAILED;
}

static int is_busy(int said) { return (said & 0xff) == SQLITE_BUSY || (said & 0xff) == SQLITE_LOCKED; }

/* Has the log begin anew where it is full, before a transaction writes. Answers whether it may write; otherwise somebody reads in the log
   still. */
static int has_room(struct session *session) {
    struct before before = before_of(session);
    if (before.had != SQLITE_TXN_NONE || !(session->wants_room || (log_is_there() && log_is_tight())))
        return 1;
    if (is_busy(log_empty(session->database))) {
        leave_no_news(session, &before);
        log_await_readers();
        return 0;
    }
    session->wants_room = 0;
    session->had_room = 1;
    return 1;
}

/* Whether what failed is to be tried again when the log has begun anew. Where it can't be, what is asked next has the room. */
static int is_for_room(struct session *session, int said) {
    if ((said & 0xff) != SQLITE_FULL || !log_is_there() || session->had_room)
        return 0;
    session->wants_room = 1;
    return 1;
}

/* Compiles what SQLite is told for a statement, and says what comes after it. */
static enum outcome compile(struct session *session, struct statement *statement, sqlite3_stmt **prepared, const char **after,
                            struct failure *failure) {
    struct before before = before_of(session);
    const char *sql = statement->sql == NULL ? statement->begin : statement->sql;
    int said = session->is_told ? SQLITE_OK : database_tell(session->database);
    session->is_told = said == SQLITE_OK;
    *after = sql;
    failure->code = NULL;
    if (session->is_told)
        said = is_for_postgres(statement, sql) ? SQLITE_ERROR : sqlite3_prepare_v2(session->database, sql, -1, prepared, after);
    if ((said & 0xff) == SQLITE_ERROR && statement->kind == PLAIN)
        said = prepare_as_postgres(session, sql, statement->sql == NULL ? statement->end : NULL, prepared, after, failure);
    if (failure->code != NULL)
        return FAILED;
    if (is_busy(said))
        return locked(session, &before, failure);
    return said == SQLITE_OK ? ENDED : fails(session, said, failure);
}

enum outcome prepare(struct session *session, struct statement *statement, sqlite3_stmt **prepared, const char **rest,
                     struct failure *failure) {
    const char *after = NULL;
    *prepared = NULL;
    *rest = statement->end;
    session->was_block = is_in_block(session);
    if (statement->kind == SHOW && setting_label(statement->name) == NULL) {
        set_failure(failure, "42704", "there is no such setting here");
        return FAILED;
    }
    if (statement->kind == SHOW)
        statement->sql = sqlite3_snprintf(sizeof statement->show, statement->show, "SELECT current_setting('%s') AS %s", statement->name,
                                          setting_label(statement->name));
    spell(statement, &session->spelled);
    if (session->spelled.is_full) {
        set_failure(failure, "53200", "out of memory");
        return FAILED;
    }
    if (statement->kind == NOTHING || statement->kind == SET || statement->kind == DISCARD || statement->kind == DEALLOCATE
        || statement->kind == PASSED)
        return ENDED;
    enum outcome outcome = compile(session, statement, prepared, &after, failure);
    if (statement->sql == NULL)
        *rest = after;
    statement->more = statement->kind == PLAIN && statement->sql != NULL && !is_blank(after) ? after : NULL;
    return outcome;
}

enum outcome prepare_more(struct session *session, struct statement *statement, sqlite3_stmt **prepared, struct failure *failure) {
    const char *after = NULL;
    statement->sql = statement->more;
    enum outcome outcome = compile(session, statement, prepared, &after, failure);
    statement->more = is_blank(after) ? NULL : after;
    return outcome;
}

enum outcome run(struct session *session, sqlite3_stmt *prepared, struct text *answer, row_taker *take_row, int64_t *rows,
                 struct failure *failure) {
    struct before before = before_of(session);
    int said;
    uint32_t begun = answer->length;
    session->was_block = is_in_block(session);
    *rows = 0;
    if (!sqlite3_stmt_readonly(prepared) && !has_room(session))
        return WAITS;
    while ((said = sqlite3_step(prepared)) == SQLITE_ROW && !answer->is_full)
        take_row(session, prepared, ++*rows);
    if (said == SQLITE_DONE && !answer->is_full)
        return ENDED;
    enum outcome outcome = FAILED;
    if (answer->is_full == TOO_LONG)
        set_failure(failure, "54000", "the answer has more than a megabyte: ask for it in parts, by LIMIT");
    else if (answer->is_full)
        set_failure(failure, "53200", "out of memory");
    else if (!is_busy(said))
        fails(session, said, failure);
    sqlite3_reset(prepared);
    if (!answer->is_full && is_busy(said))
        outcome = locked(session, &before, failure);
    else if (!answer->is_full && is_for_room(session, said) && (!before.was_open || session->is_implicit))
        outcome = before.was_open ? COLLIDES : WAITS;
    text_cut(answer, begun);
    return outcome;
}

enum outcome set_setting(struct session *session, const struct statement *statement, struct failure *failure) {
    if (statement->kind != SET && (statement->kind != DISCARD || !statement->is_default))
        return ENDED;
    int is_all = statement->is_default && strcmp(statement->name, "all") == 0;
    int setting = is_all ? SETTINGS : setting_of(statement->name);
    if (setting < 0)
        return ENDED;
    if (!settings_set(&session->settings, setting, statement->is_default ? NULL : statement->value, statement->is_local)) {
        set_failure(failure, "22023", "a timeout is a number of milliseconds, or one with its unit: ms, s, min, h or d");
        return FAILED;
    }
    session->is_asked = 0;
    session_begin(session);
    return ENDED;
}

int is_in_block(const struct session *session) {
    if (session->database == NULL)
        return 0;
    return session->is_failed || (!sqlite3_get_autocommit(session->database) && !session->is_implicit);
}

int is_let_in(const struct session *session, enum kind kind) {
    return !session->is_failed || kind == NOTHING || kind == COMMIT || kind == ROLLBACK || kind == ROLLBACK_TO;
}

enum outcome begin_implicit(struct session *session, int is_eager) {
    if (!sqlite3_get_autocommit(session->database) || session->is_failed)
        return ENDED;
    struct before before = before_of(session);
    if (is_eager && !has_room(session))
        return WAITS;
    tell(session, is_eager ? "BEGIN IMMEDIATE" : "BEGIN");
    session->is_implicit = !sqlite3_get_autocommit(session->database);
    if (session->is_implicit)
        return ENDED;
    leave_no_news(session, &before);
    return WAITS;
}

enum outcome begin_load(struct session *session) {
    struct before before = before_of(session);
    if (before.had != SQLITE_TXN_NONE || (before.was_open && session->has_savepoint))
        return ENDED;
    /* A transaction of the client's that has nothing yet begins anew, as one that writes. */
    if (before.was_open)
        tell(session, "COMMIT");
    if (log_is_there())
        log_empty(session->database);
    tell(session, "BEGIN IMMEDIATE");
    if (!sqlite3_get_autocommit(session->database)) {
        session->is_implicit |= !before.was_open;
        return ENDED;
    }
    if (before.was_open)
        tell(session, "BEGIN");
    leave_no_news(session, &before);
    return WAITS;
}

enum outcome end_implicit(struct session *session, struct failure *failure) {
    if (!session->is_implicit)
        return ENDED;
    int said = sqlite3_exec(session->database, "COMMIT", NULL, NULL, NULL);
    if (is_busy(said))
        return WAITS;
    enum outcome outcome = is_for_room(session, said) ? COLLIDES : FAILED;
    session->is_implicit = 0;
    session->has_savepoint = 0;
    if (said == SQLITE_OK)
        return ENDED;
    fails(session, said, failure);
    if (!sqlite3_get_autocommit(session->database))
        tell(session, "ROLLBACK");
    return outcome;
}

void give_up_implicit(struct session *session) {
    if (session->is_implicit && !sqlite3_get_autocommit(session->database))
        tell(session, "ROLLBACK");
    session->is_implicit = session->has_savepoint = 0;
}

void has_ended(struct session *session, enum kind kind) {
    session->waits_since = 0;
    if (kind == ROLLBACK)
        settings_end(&session->settings, 0);
    if (kind == SAVEPOINT)
        session->has_savepoint = 1;
    if (kind == COMMIT || kind == ROLLBACK)
        session->is_implicit = 0;
    if (kind == COMMIT || kind == ROLLBACK || kind == ROLLBACK_TO)
        session->is_failed = 0;
    if (sqlite3_get_autocommit(session->database))
        session->has_savepoint = session->is_implicit = 0;
}

void has_failed(struct session *session, enum kind kind) {
    int is_kept = session->has_savepoint && kind != COMMIT;
    if (session->is_implicit) {
        give_up_implicit(session);
        return;
    }
    if (session->was_block)
        session->is_failed = kind != COMMIT;
    if (session->was_block && kind == COMMIT)
        settings_end(&session->settings, 0);
    if (session->was_block && !is_kept && !sqlite3_get_autocommit(session->database))
        tell(session, "ROLLBACK");
    session->was_block = 0;
}

int is_noted(struct session *session, struct statement *statement, struct failure *warning) {
    int is_open = !sqlite3_get_autocommit(session->database), is_end = statement->kind == COMMIT || statement->kind == ROLLBACK;
    warning->code = NULL;
    if (statement->kind == BEGIN && is_open) {
        if (!session->is_implicit)
            set_failure(warning, "25001", "there is already a transaction in progress");
        session->is_implicit = 0;
        return 1;
    }
    if (is_end && session->is_failed) {
        if (is_open)
            tell(session, "ROLLBACK");
        session->is_failed = 0;
        settings_end(&session->settings, 0);
        strcpy(statement->tag, "ROLLBACK");
        return 1;
    }
    if (is_end && !is_open)
        set_failure(warning, "25P01", "there is no transaction in progress");
    return is_end && !is_open;
}
