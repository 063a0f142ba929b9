#include "declarations.h"

#include <stdlib.h>
#include <string.h>

#include "expressions.h"
#include "rows.h"
#include "session.h"
#include "settings.h"
#include "table.h"
#include "text.h"
#include "tokens.h"

/* The parts of a declaration. */

/* What is behind a parenthesis that begins here. */
static const char *behind(struct token token) {
    int depth = 0;
    for (; token.kind != END_OF_TEXT; token = token_after(&token)) {
        depth += is(&token, "(") ? 1 : is(&token, ")") ? -1 : 0;
        if (depth == 0)
            return token.at + token.length;
    }
    return token.at;
}

/* The next token that isn't within parentheses. */
static struct token next_outside(const struct token *token) { return is(token, "(") ? first_token(behind(*token)) : token_after(token); }

/* The first token that isn't within parentheses and is this word or sign. */
static struct token find(const char *sql, const char *text) {
    struct token token = first_token(sql);
    while (token.kind != END_OF_TEXT && !is(&token, text))
        token = next_outside(&token);
    return token;
}

static void answer_part(sqlite3_context *context, const char *from, const char *end) {
    while (end > from && strchr(" \t\r\n", end[-1]) != NULL)
        end--;
    sqlite3_result_text(context, from, (int)(end - from), SQLITE_TRANSIENT);
}

static const char *text_of(sqlite3_value *value) { return (const char *)sqlite3_value_text(value); }

/* What is indexed, with its parentheses. */
static void do_terms(sqlite3_context *context, int count, sqlite3_value **values) {
    const char *sql = text_of(values[0]);
    struct token token = {END_OF_TEXT, NULL, 0};
    (void)count;
    if (sql != NULL)
        token = find(sql, "(");
    if (token.kind == END_OF_TEXT)
        return;
    answer_part(context, token.at, behind(token));
}

/* One of them, by its number from 1 on. */
static void do_term(sqlite3_context *context, int count, sqlite3_value **values) {
    const char *sql = text_of(values[0]);
    int left = sqlite3_value_int(values[1]);
    (void)count;
    if (sql == NULL || left < 1)
        return;
    struct token token = find(sql, "("), begun = token_after(&token);
    for (token = begun; token.kind != END_OF_TEXT;) {
        if ((is(&token, ",") || is(&token, ")")) && --left == 0) {
            answer_part(context, begun.at, token.at);
            return;
        }
        if (is(&token, ")"))
            return;
        int is_next = is(&token, ",");
        token = next_outside(&token);
        begun = is_next ? token : begun;
    }
}

/* What stands behind a word: of a partial index behind WHERE, of a view behind AS. */
static void do_behind(sqlite3_context *context, int count, sqlite3_value **values) {
    const char *sql = text_of(values[0]), *word = text_of(values[1]);
    (void)count;
    if (sql == NULL || word == NULL)
        return;
    struct token token = find(sql, word), after = token_after(&token);
    if (token.kind != END_OF_TEXT)
        answer_part(context, after.at, sql + strlen(sql));
}

/* The conditions of a table, as JSON: [{"name": .., "is": ..}, ..] */
static void do_checks(sqlite3_context *context, int count, sqlite3_value **values) {
    const char *sql = text_of(values[0]);
    struct text checks = {.most = MOST_VALUE_BYTES};
    struct token name = {END_OF_TEXT, "", 0}, before = name, two_before = name;
    (void)count;
    if (sql == NULL)
        return;
    add(&checks, "[");
    struct token token = first_token(sql);
    for (; token.kind != END_OF_TEXT; two_before = before, before = token, token = token_after(&token)) {
        struct token begin = token_after(&token);
        if (!is(&token, "CHECK") || !is(&begin, "("))
            continue;
        int is_named = is(&two_before, "CONSTRAINT") && is_name(&before);
        char given[64] = "";
        if (is_named)
            copy_name(&before, given, sizeof given);
        add(&checks, checks.length > 1 ? ", {\"name\": " : "{\"name\": ");
        add_json_string(&checks, given, (uint32_t)strlen(given));
        add(&checks, ", \"is\": ");
        add_json_string(&checks, begin.at, (uint32_t)(behind(begin) - begin.at));
        add(&checks, "}");
        token = begin;
    }
    add(&checks, "]");
    if (checks.is_full)
        sqlite3_result_error_nomem(context);
    else
        sqlite3_result_text(context, checks.bytes, (int)checks.length, SQLITE_TRANSIENT);
    text_drop(&checks);
}

/* Types. */

/* PostgreSQL's type of a declared one: by its name where that is one of PostgreSQL's, and otherwise that in which its values come. A whole
   number has 64 bits, and a floating point number too. */
static void do_type(sqlite3_context *context, int count, sqlite3_value **values) {
    static const struct {
        const char *names;
        int type;
    } types[] = {
        {" bool boolean ", 16},        {" bytea blob ", 17},      {" char character bpchar nchar ", 1042}, {" varchar nvarchar ", 1043},
        {" date ", 1082},              {" time ", 1083},          {" timestamp datetime ", 1114},          {" timestamptz ", 1184},
        {" numeric decimal ", 1700},   {" uuid ", 2950},          {" json ", 114},                         {" jsonb ", 3802},
        {" text clob ", 25},
    };
    const char *declared = text_of(values[0]);
    struct token first = first_token(declared == NULL ? "" : declared), second = token_after(&first);
    char name[64], sought[68];
    (void)count;
    copy_name(&first, name, sizeof name);
    for (char *at = name; *at != '\0'; at++)
        *at |= *at >= 'A' && *at <= 'Z' ? 32 : 0;
    sqlite3_snprintf(sizeof sought, sought, " %s ", is(&second, "varying") ? "varchar" : name);
    int type = (int)type_of_declaration(declared);
    int is_zoned = strncmp(name, "timestamp", 9) == 0 && strstr(declared, "ith time zone") != NULL;
    for (unsigned i = 0; first.kind != END_OF_TEXT && i < sizeof types / sizeof types[0]; i++)
        if (strstr(types[i].names, sought) != NULL)
            type = types[i].type;
    sqlite3_result_int(context, is_zoned && strstr(declared, "out time zone") == NULL ? 1184 : type);
}

/* Its length, or digits, as the catalog has them; -1: none. */
static void do_type_length(sqlite3_context *context, int count, sqlite3_value **values) {
    const char *declared = text_of(values[0]), *at = declared == NULL ? NULL : strchr(declared, '(');
    int type = sqlite3_value_int(values[1]), first = at == NULL ? 0 : atoi(at + 1);
    const char *comma = at == NULL ? NULL : strchr(at, ',');
    (void)count;
    if (at == NULL || first <= 0 || (type != 1042 && type != 1043 && type != 1700))
        sqlite3_result_int(context, -1);
    else
        sqlite3_result_int(context, 4 + (type == 1700 ? first << 16 | (comma == NULL ? 0 : atoi(comma + 1) & 0xffff) : first));
}

/* Casts. */

static void do_boolean(sqlite3_context *context, int count, sqlite3_value **values) {
    static const char *const truths[] = {"t", "true", "y", "yes", "on", "1"}, *const others[] = {"f", "false", "n", "no", "off", "0"};
    const char *text = text_of(values[0]);
    (void)count;
    if (text == NULL)
        return;
    if (sqlite3_value_type(values[0]) != SQLITE_TEXT) {
        sqlite3_result_int(context, sqlite3_value_double(values[0]) != 0);
        return;
    }
    for (int i = 0; i < 6; i++)
        if (sqlite3_stricmp(text, truths[i]) == 0 || sqlite3_stricmp(text, others[i]) == 0) {
            sqlite3_result_int(context, sqlite3_stricmp(text, truths[i]) == 0);
            return;
        }
    sqlite3_result_error(context, "this is neither true nor false", -1);
}

static int digit(char c) { return c >= '0' && c <= '9' ? c - '0' : (c | 32) >= 'a' && (c | 32) <= 'f' ? (c | 32) - 'a' + 10 : -1; }

static void do_bytea(sqlite3_context *context, int count, sqlite3_value **values) {
    const char *text = text_of(values[0]);
    int length = sqlite3_value_bytes(values[0]);
    (void)count;
    if (sqlite3_value_type(values[0]) == SQLITE_BLOB || text == NULL) {
        sqlite3_result_value(context, values[0]);
        return;
    }
    char *bytes = sqlite3_malloc64((uint64_t)length + 1);
    int made = 0, is_right = length % 2 == 0 && strncmp(text, "\\x", 2) == 0;
    for (int i = 2; bytes != NULL && is_right && i < length; i += 2) {
        is_right = digit(text[i]) >= 0 && digit(text[i + 1]) >= 0;
        bytes[made++] = (char)(digit(text[i]) << 4 | digit(text[i + 1]));
    }
    if (bytes != NULL && is_right) {
        sqlite3_result_blob(context, bytes, made, sqlite3_free);
        return;
    }
    sqlite3_free(bytes);
    sqlite3_result_error(context, bytes == NULL ? "out of memory" : "bytes are written as \\x and two digits each", -1);
}

/* As PostgreSQL writes it, with a blank between day and time. */
static void do_timestamp(sqlite3_context *context, int count, sqlite3_value **values) {
    const char *text = text_of(values[0]);
    (void)count;
    char *made = text == NULL ? NULL : sqlite3_mprintf("%s", text);
    if (made == NULL)
        return;
    if (strlen(made) > 10 && made[10] == 'T')
        made[10] = ' ';
    sqlite3_result_text(context, made, -1, sqlite3_free);
}

/* Regular expressions. */

static int is_stopped(void *session) { return session_is_stopped(session); }

static void match(sqlite3_context *context, sqlite3_value *const values[], int has_capitals) {
    struct patience patience = {is_stopped, sqlite3_user_data(context), 0};
    const char *expression = text_of(values[0]), *text = text_of(values[1]);
    if (expression == NULL || text == NULL)
        return;
    int found = is_found(expression, text, has_capitals, &patience);
    if (found == -1)
        sqlite3_result_error_code(context, SQLITE_INTERRUPT);
    else if (found < 0)
        sqlite3_result_error(context, "a regular expression is none, or has more than 400 parts", -1);
    else
        sqlite3_result_int(context, found);
}

static void do_regexp(sqlite3_context *context, int count, sqlite3_value **values) {
    (void)count;
    match(context, values, 1);
}

static void do_match(sqlite3_context *context, int count, sqlite3_value **values) {
    (void)count;
    match(context, values, 0);
}

static void do_session_number(sqlite3_context *context, int count, sqlite3_value **values) {
    (void)count, (void)values;
    sqlite3_result_int64(context, ((struct session *)sqlite3_user_data(context))->number);
}

int declarations_make(struct session *session) {
    static const struct {
        const char *name;
        int count;
        void (*act)(sqlite3_context *, int, sqlite3_value **);
    } functions[] = {
        {"sql_terms", 1, do_terms},      {"sql_term", 2, do_term},           {"sql_behind", 2, do_behind},
        {"sql_checks", 1, do_checks},    {"type_of_declared", 1, do_type},   {"length_of_declared", 2, do_type_length},
        {"pg_boolean", 1, do_boolean},   {"pg_bytea", 1, do_bytea},          {"pg_timestamp", 1, do_timestamp},
        {"regexp", 2, do_regexp},        {"match", 2, do_match},             {"pg_backend_pid", 0, do_session_number},
    };
    int said = SQLITE_OK;
    for (unsigned i = 0; said == SQLITE_OK && i < sizeof functions / sizeof functions[0]; i++)
        said = sqlite3_create_function(session->database, functions[i].name, functions[i].count, SQLITE_UTF8 | SQLITE_INNOCUOUS, session,
                                       functions[i].act, NULL, NULL);
    return said == SQLITE_OK;
}
