#include "types.h"

#include <stdlib.h>
#include <string.h>

#include "rows.h"
#include "tokens.h"

#define MOST_NAME 64
#define MOST_TABLES 8
#define BEFORE 6 /* tokens that are kept */

/* What is known as the text is read. */
struct reading {
    sqlite3 *database;
    uint32_t *types;
    int count;
    char tables[MOST_TABLES][MOST_NAME];
    int tables_count, is_from; /* the last word was of a list of tables */
    struct token before[BEFORE]; /* the last one first */
    uint32_t list, range;        /* the type of what stands in the parentheses after IN, and after BETWEEN .. AND; 0: none */
    int depth, list_depth;       /* of parentheses */
    /* Of INSERT: its columns, where they are named, the place among them, and how deep its values stand. */
    const char *columns;
    int place, is_insert, values_depth;
};

/* Signs and words between a column and what has its type. */
static int is_beside(const struct token *token) {
    static const char *const texts[] = {"=", "==", "<", ">", "<=", ">=", "<>", "!=", "IS", "NOT", "+", "-", "*", "/", "%", NULL};
    return is_one(token, texts);
}

/* The type of a column that one of the statement's tables has; 0 where none has it. */
static uint32_t type_of_name(const struct reading *reading, const struct token *token) {
    char name[MOST_NAME];
    const char *declared;
    if (!is_name(token))
        return 0;
    copy_name(token, name, sizeof name);
    for (int i = 0; i < reading->tables_count; i++) {
        const char *table = reading->tables[i];
        if (sqlite3_table_column_metadata(reading->database, NULL, table, name, &declared, NULL, NULL, NULL, NULL) == SQLITE_OK)
            return type_of_declaration(declared);
    }
    return 0;
}

/* The type that ends at a parenthesis, as in CAST(x AS type). */
static uint32_t type_until_end(const char *at, uint32_t length) {
    char declared[MOST_NAME];
    uint32_t count = length < MOST_NAME ? length : MOST_NAME - 1;
    memcpy(declared, at, count);
    declared[count] = '\0';
    return type_of_declaration(declared);
}

/* The column of an INSERT at a place, by its list of columns or by its table. */
static uint32_t type_of_place(const struct reading *reading) {
    struct token token = {SIGN, reading->columns, 0};
    if (reading->columns == NULL) {
        sqlite3_stmt *prepared = NULL;
        char *sql = sqlite3_mprintf("SELECT * FROM \"%w\"", reading->tables[0]);
        uint32_t type = 0;
        if (sql != NULL && sqlite3_prepare_v2(reading->database, sql, -1, &prepared, NULL) == SQLITE_OK
            && reading->place < sqlite3_column_count(prepared))
            type = declared_type(prepared, reading->place);
        sqlite3_finalize(prepared);
        sqlite3_free(sql);
        return type;
    }
    for (int place = 0; place <= reading->place && !is(&token, ")"); place++) {
        token = token_after(&token);
        if (place == reading->place)
            return type_of_name(reading, &token);
        while (token.kind != END_OF_TEXT && !is(&token, ",") && !is(&token, ")"))
            token = token_after(&token);
    }
    return 0;
}

static uint32_t type_beside(const struct reading *reading, const struct token *token) {
    const struct token *before = reading->before;
    struct token next = token_after(token), other = token_after(&next);
    const char *suffix = memchr(token->at, ':', token->length);
    uint32_t type = 0;
    if (suffix != NULL)
        return type_until_end(suffix + 1, (uint32_t)(token->at + token->length - suffix - 1));
    if (is(&before[0], "(") && is(&before[1], "CAST") && is(&next, "AS"))
        return type_until_end(other.at, (uint32_t)strcspn(other.at, ")"));
    if (is(&before[0], "LIMIT") || is(&before[0], "OFFSET") || (is(&before[0], ",") && is(&before[2], "LIMIT")))
        return INT8;
    if (reading->list != 0)
        return reading->list;
    if (reading->range != 0)
        return reading->range;
    if (reading->values_depth > 0 && reading->depth == reading->values_depth && (is(&before[0], "(") || is(&before[0], ",")))
        return type_of_place(reading);
    for (int i = 0; i < 2 && is_beside(&before[i]) && type == 0; i++)
        type = type_of_name(reading, &before[i + 1]);
    if (type == 0 && is_beside(&next)) {
        struct token dot = token_after(&other), column = token_after(&dot);
        type = type_of_name(reading, is(&dot, ".") ? &column : &other);
    }
    return type;
}

/* A table's name, after a word by which it is named, or a comma, and behind that of its database. */
static void take_table(struct reading *reading, const struct token *token) {
    static const char *const words[] = {"FROM", "JOIN", "INTO", "UPDATE", NULL};
    static const char *const passed[] = {"OR", "SELECT", "SET", "DO", NULL};
    static const char *const ends[] = {"WHERE", "GROUP", "ORDER", "LIMIT", "ON", "USING", "UNION", "SELECT", "SET", NULL};
    const struct token *before = reading->before;
    int is_first = is_one(&before[0], words) || (reading->is_from && is(&before[0], ","));
    int is_behind = is(&before[0], ".") && reading->tables_count > 0 && (is_one(&before[2], words) || is(&before[2], ","));
    if (is(token, "FROM"))
        reading->is_from = 1;
    else if (is_one(token, ends))
        reading->is_from = 0;
    reading->is_insert |= is(token, "INTO");
    if (!is_name(token) || is_one(token, passed))
        return;
    if (is_behind)
        copy_name(token, reading->tables[reading->tables_count - 1], MOST_NAME);
    else if (is_first && reading->tables_count < MOST_TABLES)
        copy_name(token, reading->tables[reading->tables_count++], MOST_NAME);
}

static void take_token(struct reading *reading, const struct token *token) {
    const struct token *before = reading->before;
    if (is(token, "("))
        reading->depth++;
    if (is(token, "(") && is(&before[0], "IN")) {
        reading->list = type_of_name(reading, is(&before[1], "NOT") ? &before[2] : &before[1]);
        reading->list_depth = reading->depth;
    } else if (is(token, "(") && is_name(&before[0]) && (is(&before[1], "INTO") || is(&before[3], "INTO") || is(&before[5], "INTO"))) {
        reading->columns = token->at + 1;
    } else if (is(token, "(") && reading->is_insert && (is(&before[0], "VALUES") || (is(&before[0], ",") && reading->values_depth < 0))) {
        reading->values_depth = reading->depth;
        reading->place = 0;
    } else if (is(token, ",") && reading->depth == reading->values_depth) {
        reading->place++;
    } else if (is(token, "BETWEEN")) {
        reading->range = type_of_name(reading, is(&before[0], "NOT") ? &before[1] : &before[0]);
    } else if (reading->range != 0 && (is(&before[0], "AND") || is(token, ")"))) {
        reading->range = 0;
    }
    if (is(token, ")") && reading->depth == reading->list_depth)
        reading->list = 0;
    if (is(token, ")") && reading->depth == reading->values_depth)
        reading->values_depth = -1;
    if (is(token, ")"))
        reading->depth--;
}

/* Reads all tokens: first for the tables, and then, where these are known, for the parameters. */
static void read_all(struct reading *reading, const char *text, int is_for_tables) {
    memset(reading->before, 0, sizeof reading->before);
    for (struct token token = first_token(text); token.kind != END_OF_TEXT; token = token_after(&token)) {
        int number = token.kind == PARAMETER ? atoi(token.at + 1) : 0;
        if (is_for_tables)
            take_table(reading, &token);
        else if (number > 0 && number <= reading->count && reading->types[number - 1] == 0)
            reading->types[number - 1] = type_beside(reading, &token);
        if (!is_for_tables)
            take_token(reading, &token);
        memmove(&reading->before[1], &reading->before[0], (BEFORE - 1) * sizeof token);
        reading->before[0] = token;
    }
}

void types_of_parameters(sqlite3 *database, const char *text, uint32_t *types, int count) {
    struct reading reading = {.database = database, .types = types, .count = count};
    memset(types, 0, (size_t)count * sizeof *types);
    read_all(&reading, text, 1);
    read_all(&reading, text, 0);
    for (int i = 0; i < count; i++)
        if (types[i] == 0)
            types[i] = TEXT;
}
