#include "translate.h"

#include <string.h>

#include "casts.h"
#include "catalog.h"
#include "escapes.h"
#include "sqlite3.h"
#include "tokens.h"

#define MOST_DEPTH 60
#define MOST_NAME 64
#define MOST_SETS 8192
#define NONE UINT32_MAX

/* What a parenthesis or a bracket holds, by which its end is written. */
enum holds {
    TERMS,        /* what SQLite's holds too */
    CALL,         /* the values of a function */
    CAST_TERM,    /* CAST(x AS type) */
    ANY_ARRAY,    /* = ANY(array) */
    ARRAY_LIST,   /* ARRAY[..] */
    ARRAY_QUERY,  /* ARRAY(SELECT ..) */
    ELEMENT,      /* x[..] */
    ROWS_IN_FROM, /* a function that makes rows, among tables */
    ROWS_IN_LIST, /* and among the columns of a query */
};

/* Where in a query. */
enum place { NO_QUERY, IN_LIST, IN_FROM, BEHIND_FROM };

struct frame {
    enum holds holds;
    uint32_t begun, inside;    /* where in what is written it begins, with its function's name, and what it holds */
    uint32_t case_begun;       /* the last CASE in it */
    int commas;
    enum place place;
    int is_sorted;             /* by ORDER BY within a call */
    char function[MOST_NAME];
    /* Of a query with a function that makes rows among its columns: that function's table, to be written among its tables. */
    int rows_number;           /* 0: it has none */
    uint32_t rows_at, rows_length;
};

struct writing {
    struct token token, before[2]; /* and what was before it, the last one first */
    struct text *out, rows;
    struct frame frames[MOST_DEPTH];
    int depth, rows_count, is_left_out; /* the token isn't there for those after it */
    int is_table;     /* the statement makes one */
    uint32_t operand; /* where the last term begins; NONE: there is none that an operator could follow */
    uint32_t sign;    /* where the last operator does */
    struct translation *translation;
};

static void refuse(struct writing *writing, const char *code, const char *why) {
    if (writing->translation->code == NULL) {
        writing->translation->code = code;
        writing->translation->why = why;
    }
}

static void insert(struct text *text, uint32_t at, const char *what) {
    uint32_t count = (uint32_t)strlen(what), length = text->length;
    add(text, what);
    if (text->is_full)
        return;
    memmove(text->bytes + at + count, text->bytes + at, length - at);
    memcpy(text->bytes + at, what, count);
}

/* Writes what isn't there so. */
static void write(struct writing *writing, const char *what) {
    add(writing->out, what);
    writing->translation->is_other = 1;
}

static void copy(struct writing *writing) { add_bytes(writing->out, writing->token.at, writing->token.length); }

static struct token next(const struct writing *writing) { return token_after(&writing->token); }

static void take(struct writing *writing) { writing->token = next(writing); }

static struct frame *top(struct writing *writing) { return &writing->frames[writing->depth]; }

static struct frame *push(struct writing *writing, enum holds holds, uint32_t begun) {
    writing->operand = NONE;
    if (writing->depth + 1 == MOST_DEPTH) {
        refuse(writing, "54001", "parentheses are too deep");
        return top(writing);
    }
    struct frame *frame = &writing->frames[++writing->depth];
    *frame = (struct frame){.holds = holds, .begun = begun, .inside = writing->out->length, .case_begun = NONE};
    return frame;
}

static void begin_term(struct writing *writing) {
    if (!is(&writing->before[0], ".") || writing->operand == NONE)
        writing->operand = writing->out->length;
}

/* Words after which no operator stands, and which are no alias. */
static int is_word_of_clause(const struct token *token) {
    static const char *const words[] = {
        "SELECT", "DISTINCT", "ALL",    "FROM",   "WHERE",  "AND",    "OR",     "NOT",    "IN",      "IS",     "LIKE",   "ILIKE",
        "GLOB",   "REGEXP",   "MATCH",  "BETWEEN", "CASE",  "WHEN",   "THEN",   "ELSE",   "JOIN",    "LEFT",   "RIGHT",  "FULL",
        "INNER",  "OUTER",    "CROSS",  "NATURAL", "ON",    "USING",  "GROUP",  "ORDER",  "BY",      "HAVING", "LIMIT",  "OFFSET",
        "UNION",  "EXCEPT",   "INTERSECT", "VALUES", "SET", "INTO",   "INSERT", "UPDATE", "DELETE",  "AS",     "ASC",    "DESC",
        "EXISTS", "WITH",     "ESCAPE", "RETURNING", "WINDOW", "FETCH", "LATERAL", "ISNULL", "NOTNULL", NULL};
    return token->kind == WORD && is_one(token, words);
}

/* Casts; the type comes next. */
static void cast(struct writing *writing) {
    char type[MOST_TYPE];
    take(writing);
    writing->token = last_of_type(writing->token, type);
    const struct cast *cast = cast_to(type);
    if (writing->operand == NONE)
        refuse(writing, "42601", "a cast stands behind no value");
    else if (cast == NULL)
        refuse(writing, "42704", "values can't be cast to this type here");
    if (writing->translation->code != NULL)
        return;
    insert(writing->out, writing->operand, cast->before);
    write(writing, cast->behind);
}

/* The type in CAST(x AS type): one of SQLite's own stays as it is. */
static void end_cast(struct writing *writing) {
    char type[MOST_TYPE];
    struct token token = next(writing), last = last_of_type(token, type);
    if (cast_to(type) != NULL) {
        writing->operand = top(writing)->inside;
        cast(writing);
        return;
    }
    insert(writing->out, top(writing)->begun, "CAST");
    add(writing->out, "AS ");
    add_bytes(writing->out, token.at, (uint32_t)(last.at + last.length - token.at));
    writing->token = last;
}

/* Functions that make rows: as tables, whose names say what their columns are called (sets.h). */

static int makes_rows(const struct token *token) {
    static const char *const names[] = {"unnest", "generate_series", "generate_subscripts", "pg_partition_ancestors", NULL};
    return is_one(token, names);
}

static void begin_rows(struct writing *writing) {
    enum place place = top(writing)->place;
    uint32_t begun = writing->out->length;
    char name[MOST_NAME];
    copy_name(&writing->token, name, sizeof name);
    if (place != IN_LIST && place != IN_FROM)
        refuse(writing, "0A000", "a function that makes rows stands among a query's columns or tables alone here");
    take(writing);
    write(writing, "(");
    memcpy(push(writing, place == IN_FROM ? ROWS_IN_FROM : ROWS_IN_LIST, begun)->function, name, sizeof name);
}

static int is_plain(const char *name) {
    for (; (*name | 32) >= 'a' && (*name | 32) <= 'z'; name++)
        ;
    return name[strspn(name, "abcdefghijklmnopqrstuvwxyzABCDEFGHIJKLMNOPQRSTUVWXYZ_0123456789")] == '\0';
}

static void add_column(struct writing *writing, struct text *names, const char *name) {
    if (!is_plain(name))
        refuse(writing, "0A000", "a function that makes rows has columns with plain names alone here");
    add(names, " ");
    add(names, name);
}

/* Reads [WITH ORDINALITY] after the function. Answers whether it is there. */
static int read_ordinality(struct writing *writing) {
    struct token token = next(writing), after = token_after(&token);
    int is_there = is(&token, "WITH") && is(&after, "ORDINALITY");
    if (is_there)
        writing->token = after;
    return is_there;
}

/* Reads [[AS] alias]. Answers whether there is one. */
static int read_alias(struct writing *writing, char alias[MOST_NAME]) {
    struct token token = next(writing);
    if (is(&token, "AS")) {
        take(writing);
        token = next(writing);
    }
    if (!is_name(&token) || is_word_of_clause(&token))
        return 0;
    take(writing);
    copy_name(&token, alias, MOST_NAME);
    return 1;
}

static void end_rows_in_from(struct writing *writing, const struct frame *frame) {
    int columns = strcmp(frame->function, "unnest") == 0 ? frame->commas + 1 : 1, given = 0;
    struct text names = {.most = 1000};
    char alias[MOST_NAME], name[MOST_NAME];
    memcpy(alias, frame->function, sizeof alias);
    int has_numbers = read_ordinality(writing), is_named = read_alias(writing, alias);
    struct token after = next(writing);
    add(&names, "\"");
    add(&names, frame->function);
    if (is_named && is(&after, "("))
        for (take(writing); writing->token.kind != END_OF_TEXT && !is(&writing->token, ")"); take(writing))
            if (is_name(&writing->token)) {
                copy_name(&writing->token, name, sizeof name);
                add_column(writing, &names, name);
                given++;
            }
    if (given > columns + has_numbers)
        refuse(writing, "42P10", "a function that makes rows has fewer columns than names");
    for (; given < columns; given++)
        add_column(writing, &names, given == 0 ? alias : "value");
    if (!has_numbers)
        add(&names, " -");
    else if (given == columns)
        add_column(writing, &names, "ordinality");
    add_bytes(&names, "\"", 2);
    if (names.is_full)
        refuse(writing, "54000", "there are too many names");
    if (writing->translation->code == NULL) {
        insert(writing->out, frame->begun, names.bytes);
        add_bytes(&writing->translation->sets, names.bytes + 1, names.length - 3);
        add_bytes(&writing->translation->sets, "", 1);
        add(writing->out, ") AS ");
        add(writing->out, alias);
    }
    text_drop(&names);
    writing->operand = NONE;
}

/* The function stands among the tables, and its column in its place. */
static void end_rows_in_list(struct writing *writing, const struct frame *frame) {
    struct frame *query = top(writing);
    struct text *out = writing->out, *rows = &writing->rows;
    int is_number = query->rows_number != 0;
    char column[32];
    if (is_number && strcmp(frame->function, "generate_subscripts") != 0)
        refuse(writing, "0A000", "one function that makes rows stands among a query's columns here, and its subscripts");
    if (out->is_full || writing->translation->code != NULL)
        return;
    if (!is_number) {
        query->rows_number = ++writing->rows_count;
        query->rows_at = rows->length;
        add(rows, " \"");
        add(rows, frame->function);
        add(rows, " value ordinality\"(");
        add(&writing->translation->sets, frame->function);
        add_bytes(&writing->translation->sets, " value ordinality", 18);
        add_bytes(rows, out->bytes + frame->inside, out->length - frame->inside);
        add(rows, sqlite3_snprintf(sizeof column, column, ") AS set_%d ", query->rows_number));
        query->rows_length = rows->length - query->rows_at;
    }
    text_cut(out, frame->begun);
    add(out, sqlite3_snprintf(sizeof column, column, "set_%d.%s", query->rows_number, is_number ? "ordinality" : "value"));
    writing->operand = frame->begun;
}

/* A query's columns, or its tables too, are over. */
static void end_tables(struct writing *writing) {
    struct frame *query = top(writing);
    if (query->place == NO_QUERY || query->place == BEHIND_FROM)
        return;
    if (query->rows_number != 0 && !writing->rows.is_full) {
        write(writing, query->place == IN_LIST ? " FROM" : ",");
        add_bytes(writing->out, writing->rows.bytes + query->rows_at, query->rows_length);
    }
    query->rows_number = 0;
    query->place = BEHIND_FROM;
}

/* Parentheses and brackets. */

static void begin_parenthesis(struct writing *writing) {
    struct frame *outer = top(writing);
    int is_call = writing->operand != NONE && is_name(&writing->before[0]);
    int is_among_tables = outer->place == IN_FROM && !is_call && !is(&writing->before[0], "ON") && !is(&writing->before[0], "USING");
    uint32_t begun = is_call ? writing->operand : writing->out->length;
    copy(writing);
    struct frame *frame = push(writing, is_call ? CALL : TERMS, begun);
    if (is_call)
        copy_name(&writing->before[0], frame->function, sizeof frame->function);
    frame->place = is_among_tables ? IN_FROM : NO_QUERY;
}

static void end_parenthesis(struct writing *writing) {
    static const char *const ends[] = {
        [TERMS] = ")", [CALL] = ")", [CAST_TERM] = ")", [ANY_ARRAY] = "))", [ARRAY_LIST] = ")",
        [ARRAY_QUERY] = ") SELECT pg_array_all(x_) FROM q_)", [ELEMENT] = ")", [ROWS_IN_FROM] = "", [ROWS_IN_LIST] = "",
    };
    struct frame frame = *top(writing);
    if (writing->depth == 0) {
        copy(writing);
        return;
    }
    if (frame.holds == TERMS || frame.holds == ARRAY_QUERY)
        end_tables(writing);
    writing->depth--;
    writing->operand = frame.begun;
    add(writing->out, ends[frame.holds]);
    if (frame.holds == ROWS_IN_FROM)
        end_rows_in_from(writing, &frame);
    else if (frame.holds == ROWS_IN_LIST)
        end_rows_in_list(writing, &frame);
}

static void begin_array(struct writing *writing) {
    uint32_t begun = writing->out->length;
    struct token after = next(writing);
    int is_list = after.at[0] == '[';
    writing->token = (struct token){SIGN, after.at, 1};
    write(writing, is_list ? "pg_array(" : "(WITH q_(x_) AS (");
    push(writing, is_list ? ARRAY_LIST : ARRAY_QUERY, begun);
}

static void begin_element(struct writing *writing) {
    uint32_t begun = writing->operand;
    insert(writing->out, begun, "pg_element(");
    write(writing, ", ");
    writing->token.length = 1;
    push(writing, ELEMENT, begun);
}

/* = ANY(..) and <> ALL(..), where a sign stands before. */
static void begin_any(struct writing *writing) {
    const struct token *sign = &writing->before[0];
    int is_equal = is(sign, "="), is_all = is(&writing->token, "ALL");
    if (is_equal == is_all || (!is_equal && !is(sign, "<>") && !is(sign, "!=")))
        refuse(writing, "0A000", "of these = ANY and <> ALL alone are here");
    text_cut(writing->out, writing->sign);
    write(writing, is_equal ? "IN " : "NOT IN ");
    take(writing);
    struct token first = next(writing);
    uint32_t begun = writing->out->length;
    int is_query = is(&first, "SELECT") || is(&first, "VALUES") || is(&first, "WITH");
    add(writing->out, is_query ? "(" : "(SELECT value FROM \"unnest value ordinality\"(");
    push(writing, is_query ? TERMS : ANY_ARRAY, begun);
}

/* Operators. */

/* The operator for patterns that begins here, and SQLite's. */
static const char *operator_of(const char *at, uint32_t *length) {
    static const char *const operators[][2] = {
        {"!~~*", " NOT LIKE "}, {"!~~", " NOT LIKE "}, {"!~*", " NOT MATCH "}, {"!~", " NOT REGEXP "},
        {"~~*", " LIKE "},      {"~~", " LIKE "},      {"~*", " MATCH "},      {"~", " REGEXP "},
    };
    for (unsigned i = 0; i < sizeof operators / sizeof operators[0]; i++) {
        *length = (uint32_t)strlen(operators[i][0]);
        if (strncmp(at, operators[i][0], *length) == 0)
            return operators[i][1];
    }
    return NULL;
}

static void write_operator(struct writing *writing, const char *at, uint32_t count) {
    uint32_t length;
    const char *pattern = writing->operand == NONE ? NULL : operator_of(at, &length);
    writing->sign = writing->out->length;
    if (pattern != NULL) {
        write(writing, pattern);
        writing->token.length = length;
    } else {
        add_bytes(writing->out, at, count);
    }
    writing->operand = NONE;
}

/* OPERATOR(pg_catalog.~) */
static void write_named_operator(struct writing *writing) {
    static const char signs[] = "~!@#%^&|`?+-*/<>=";
    take(writing);
    const char *at = writing->token.at + strcspn(writing->token.at, signs);
    uint32_t count = (uint32_t)strspn(at, signs);
    write_operator(writing, at, count);
    writing->translation->is_other = 1;
    writing->token = (struct token){SIGN, at + count, at[count] == ')'};
}

static void write_sign(struct writing *writing) {
    const char *at = writing->token.at;
    if (at[0] == ':' && at[1] == ':') {
        writing->token.length = 2;
        cast(writing);
    } else if (*at == '(') {
        begin_parenthesis(writing);
    } else if (*at == ')' || *at == ']') {
        end_parenthesis(writing);
    } else if (*at == '.') {
        copy(writing);
    } else if (*at == ',' || *at == ';') {
        if (*at == ';')
            end_tables(writing);
        top(writing)->commas++;
        copy(writing);
        writing->operand = NONE;
    } else {
        write_operator(writing, at, writing->token.length);
    }
}

/* Words. */

/* A word of a clause: where in its query it is. */
static void write_clause(struct writing *writing) {
    static const char *const ends[] = {"WHERE", "GROUP",     "HAVING", "ORDER",  "LIMIT", "OFFSET",
                                       "UNION", "INTERSECT", "EXCEPT", "WINDOW", NULL};
    struct frame *frame = top(writing);
    const struct token *token = &writing->token;
    if (is(token, "SELECT"))
        frame->place = IN_LIST;
    else if (is(token, "FROM") && frame->holds != CALL && !is(&writing->before[0], "DISTINCT"))
        frame->place = IN_FROM;
    else if (is_one(token, ends))
        end_tables(writing);
    if (is(token, "CASE"))
        frame->case_begun = writing->out->length;
    copy(writing);
    writing->operand = NONE;
}

/* After AS a word that SQLite keeps for itself is a name. */
static void write_as(struct writing *writing) {
    static const char *const kept[] = {"SELECT", "VALUES", "WITH", "MATERIALIZED", "NOT", NULL};
    if (top(writing)->holds == CAST_TERM) {
        end_cast(writing);
        return;
    }
    copy(writing);
    writing->operand = NONE;
    struct token token = next(writing);
    if (token.kind != WORD || !sqlite3_keyword_check(token.at, (int)token.length) || is_one(&token, kept))
        return;
    take(writing);
    write(writing, " \"");
    copy(writing);
    add(writing->out, "\"");
}

/* Collations: PostgreSQL's own order is SQLite's by bytes. */
static void write_collation(struct writing *writing) {
    struct token token = next(writing), after = token_after(&token);
    char name[MOST_NAME];
    if (is(&after, "."))
        token = token_after(&after);
    copy_name(&token, name, sizeof name);
    if (sqlite3_stricmp(name, "default") == 0 || strcmp(name, "C") == 0 || strcmp(name, "POSIX") == 0) {
        writing->token = token;
        writing->translation->is_other = 1;
    } else {
        copy(writing);
        writing->operand = NONE;
    }
}

/* Within a call ORDER BY is a further value, where the function knows that. */
static int is_order_in_call(struct writing *writing) {
    struct frame *frame = top(writing);
    int is_known = sqlite3_stricmp(frame->function, "array_agg") == 0 || sqlite3_stricmp(frame->function, "string_agg") == 0;
    return frame->holds == CALL && is_known && is(&writing->token, "ORDER");
}

static void write_order_in_call(struct writing *writing) {
    take(writing);
    write(writing, ",");
    top(writing)->is_sorted = 1;
    writing->operand = NONE;
}

/* A schema's name and its point. Answers whether there is one, which is left out or has another name. */
static int write_schema(struct writing *writing) {
    struct token point = next(writing), name = token_after(&point);
    char written[MOST_NAME];
    if (!is(&point, ".") || is(&writing->before[0], "."))
        return 0;
    copy_name(&writing->token, written, sizeof written);
    if (strcmp(written, "information_schema") == 0 && is_name(&name)) {
        writing->operand = writing->out->length;
        copy_name(&name, written, sizeof written);
        write(writing, "\"information_schema.");
        add(writing->out, written);
        add(writing->out, "\"");
        writing->token = name;
        return 1;
    }
    if (strcmp(written, "pg_catalog") != 0 && strcmp(written, "public") != 0)
        return 0;
    writing->translation->is_other = 1;
    writing->token = point;
    writing->is_left_out = written[1] == 'g';
    if (writing->is_left_out)
        return 1;
    writing->operand = writing->out->length;
    add(writing->out, "main.");
    return 1;
}

/* SERIAL. */

static int is_serial(const struct token *token) {
    static const char *const types[] = {"serial", "serial4", "serial8", "bigserial", "smallserial", NULL};
    return token->kind == WORD && is_one(token, types);
}

int has_serial(const char *sql) {
    struct token before = first_token(sql), token = token_after(&before);
    for (; token.kind != END_OF_TEXT && !is(&token, ";"); before = token, token = token_after(&token))
        if (is_serial(&token) && is_name(&before))
            return 1;
    return 0;
}

static int is_same_name(const struct token *one, const struct token *other) {
    char names[2][MOST_NAME];
    copy_name(one, names[0], MOST_NAME);
    copy_name(other, names[1], MOST_NAME);
    return is_name(one) && is_name(other) && sqlite3_stricmp(names[0], names[1]) == 0;
}

/* Whether the column that a type belongs to is the table's key: PRIMARY stands behind it, or PRIMARY KEY (column) behind them all. */
static int is_key(const struct token *column, const struct token *type) {
    int depth = 0, is_behind = 0;
    for (struct token token = token_after(type); token.kind != END_OF_TEXT && depth >= 0; token = token_after(&token)) {
        depth += is(&token, "(") ? 1 : is(&token, ")") ? -1 : 0;
        is_behind |= depth == 0 && is(&token, ",");
        if (depth != 0 || !is(&token, "PRIMARY"))
            continue;
        struct token key = token_after(&token), open = token_after(&key), name = token_after(&open), close = token_after(&name);
        if (!is_behind || (is_same_name(&name, column) && is(&close, ")")))
            return 1;
    }
    return 0;
}

static void write_serial(struct writing *writing) {
    if (!is_key(&writing->before[0], &writing->token))
        refuse(writing, "0A000", "a SERIAL column is numbered only where it is its table's primary key, alone");
    write(writing, "INTEGER");
}

static void write_name(struct writing *writing) {
    static const char *const others[][2] = {
        {"json_build_object", "json_object"}, {"current_user", "current_user()"},     {"session_user", "session_user()"},
        {"current_role", "current_user()"},   {"current_catalog", "current_database()"}, {"current_schema", "current_schema()"},
    };
    struct token after = next(writing);
    begin_term(writing);
    for (unsigned i = 0; i < sizeof others / sizeof others[0]; i++)
        if (is(&writing->token, others[i][0]) && !is(&writing->before[0], ".") && is(&after, "(") == (i == 0)) {
            write(writing, others[i][1]);
            return;
        }
    copy(writing);
}

static int is_behind_sign(const struct writing *writing) {
    return writing->operand == NONE && writing->before[0].kind == SIGN && !is(&writing->before[0], "(");
}

static void write_word(struct writing *writing) {
    static const char *const any[] = {"ANY", "SOME", "ALL", NULL}, *const dated[] = {"date", "timestamp", "timestamptz", "time", NULL},
                                    *const passed[] = {"LATERAL", "ONLY", NULL};
    const struct token *token = &writing->token;
    struct token after = next(writing);
    int is_called = is(&after, "("), is_array = is(token, "ARRAY");
    if (token->length == 1 && (*token->at | 32) == 'e' && token->at[1] == '\'') {
        uint32_t begun = writing->out->length;
        begin_term(writing);
        const char *end = add_escaped(writing->out, token->at + 1);
        writing->token = (struct token){VALUE, token->at, (uint32_t)(end - token->at)};
        writing->translation->is_other = 1;
        if (!writing->out->is_full && !is_utf8(writing->out->bytes + begun, writing->out->length - begun))
            refuse(writing, "22021", NOT_UTF8);
    } else if (is_array && (is_called || after.at[0] == '[')) {
        begin_array(writing);
    } else if (is_called && is_one(token, any) && is_behind_sign(writing)) {
        begin_any(writing);
    } else if (is(token, "OPERATOR") && is_called) {
        write_named_operator(writing);
    } else if (is(token, "COLLATE")) {
        write_collation(writing);
    } else if (is(token, "CAST") && is_called) {
        uint32_t begun = writing->out->length;
        take(writing);
        copy(writing);
        push(writing, CAST_TERM, begun);
    } else if (is(token, "AS")) {
        write_as(writing);
    } else if (is_order_in_call(writing)) {
        write_order_in_call(writing);
    } else if (is_called && makes_rows(token)) {
        begin_rows(writing);
    } else if (is(token, "ILIKE")) {
        write(writing, "LIKE");
        writing->operand = NONE;
    } else if ((is_one(token, passed) && top(writing)->place == IN_FROM) || (is_one(token, dated) && after.kind == VALUE)) {
        writing->translation->is_other = 1;
    } else if (is(token, "END") && top(writing)->case_begun != NONE) {
        copy(writing);
        writing->operand = top(writing)->case_begun;
    } else if (is_serial(token) && is_name(&writing->before[0]) && writing->is_table) {
        write_serial(writing);
    } else if (is_word_of_clause(token) && !is(&writing->before[0], ".")) {
        if (is(token, "DESC") && top(writing)->is_sorted)
            refuse(writing, "0A000", "ORDER BY within a call is upwards alone here");
        write_clause(writing);
    } else if (!write_schema(writing)) {
        write_name(writing);
    }
}

/* A string that stands for truth beside a column of the catalog's that has that. */
static int is_truth(const struct writing *writing) {
    static const char *const truths[] = {"'t'", "'f'", "'true'", "'false'"};
    char name[MOST_NAME];
    if (writing->before[0].kind != SIGN || !is_name(&writing->before[1]))
        return 0;
    copy_name(&writing->before[1], name, sizeof name);
    for (int i = 0; i < 4; i++)
        if (writing->token.length == strlen(truths[i]) && memcmp(writing->token.at, truths[i], writing->token.length) == 0)
            return is_truth_of_catalog(name);
    return 0;
}

static void write_token(struct writing *writing) {
    struct token *token = &writing->token;
    const char *colon = token->kind == PARAMETER ? memchr(token->at, ':', token->length) : NULL;
    int is_behind = writing->operand != NONE && token->at == writing->before[0].at + writing->before[0].length;
    if (colon != NULL)
        token->length = (uint32_t)(colon - token->at);
    if (token->kind == WORD) {
        write_word(writing);
    } else if (token->kind == SIGN) {
        write_sign(writing);
    } else if (token->at[0] == '[' && is_behind) {
        begin_element(writing);
    } else if (token->kind == VALUE && is_truth(writing)) {
        begin_term(writing);
        write(writing, token->at[1] == 't' ? "1" : "0");
    } else if (token->kind != NAME || !write_schema(writing)) {
        begin_term(writing);
        copy(writing);
    }
}

static int is_over(const struct writing *writing, const char *end) {
    const struct token *token = &writing->token;
    return token->kind == END_OF_TEXT || (end == NULL ? writing->depth == 0 && is(&writing->before[0], ";") : token->at >= end);
}

void translate(const char *begin, const char *end, struct text *to, struct translation *translation) {
    struct writing writing = {.out = to, .rows.most = to->most, .operand = NONE, .translation = translation};
    struct token first = first_token(begin);
    *translation = (struct translation){.after = begin, .sets.most = MOST_SETS};
    writing.frames[0].case_begun = NONE;
    writing.is_table = is(&first, "CREATE");
    for (writing.token = first; !is_over(&writing, end) && translation->code == NULL && !to->is_full; take(&writing)) {
        add_bytes(to, translation->after, (uint32_t)(writing.token.at - translation->after));
        writing.is_left_out = 0;
        write_token(&writing);
        translation->after = writing.token.at + writing.token.length;
        if (!writing.is_left_out) {
            writing.before[1] = writing.before[0];
            writing.before[0] = writing.token;
        }
    }
    if (writing.depth == 0)
        end_tables(&writing);
    add_bytes(to, "", 1);
    if (to->is_full || translation->sets.is_full)
        refuse(&writing, to->is_full == TOO_LONG ? "54000" : "53200", "a statement is too long, or there is no memory");
    text_drop(&writing.rows);
}
