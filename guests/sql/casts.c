#include "casts.h"

#include <stddef.h>
#include <string.h>

#include "sqlite3.h"

/* Dates and times are text here, arrays are as PostgreSQL writes them. */
static const struct cast casts[] = {
    {" text varchar bpchar char character name unknown citext cstring character_varying ", "(CAST(", " AS TEXT))"},
    {" int int2 int4 int8 integer bigint smallint oid xid ", "(CAST(", " AS INTEGER))"},
    {" float float4 float8 real double_precision ", "(CAST(", " AS REAL))"},
    {" numeric decimal ", "(CAST(", " AS NUMERIC))"},
    {" bool boolean ", "pg_boolean(", ")"},
    {" bytea ", "pg_bytea(", ")"},
    {" date ", "date(", ")"},
    {" timestamp timestamptz timestamp_with_time_zone timestamp_without_time_zone ", "pg_timestamp(", ")"},
    {" regclass ", "regclass(", ")"},
    {" regtype ", "regtype(", ")"},
    {" regnamespace ", "regnamespace(", ")"},
    {" time time_without_time_zone uuid json jsonb inet regproc regrole int2vector oidvector [] ", "", ""},
};

static int is_of_many(const char *type, const struct token *token) {
    static const char *const doubled[] = {"precision", NULL}, *const characters[] = {"varying", NULL},
                                          *const times[] = {"with", "without", "time", "zone", NULL};
    return strcmp(type, "double") == 0              ? is_one(token, doubled)
           : strcmp(type, "character") == 0         ? is_one(token, characters)
           : strncmp(type, "time", 4) == 0          ? is_one(token, times)
                                                    : 0;
}

static void add_word(char type[MOST_TYPE], const struct token *token) {
    size_t length = strlen(type);
    if (length > 0 && length + 1 < MOST_TYPE)
        type[length++] = '_';
    copy_name(token, type + length, (uint32_t)(MOST_TYPE - length));
    for (char *at = type + length; *at != '\0'; at++)
        *at = (char)(*at >= 'A' && *at <= 'Z' && token->kind == WORD ? *at | 32 : *at);
}

/* After (n, ..), which may follow a type. */
static struct token after_lengths(struct token token) {
    struct token after = token_after(&token);
    if (!is(&after, "("))
        return token;
    while (after.kind != END_OF_TEXT && !is(&after, ")"))
        after = token_after(&after);
    return after;
}

struct token last_of_type(struct token token, char type[MOST_TYPE]) {
    struct token after = token_after(&token);
    type[0] = '\0';
    if (!is_name(&token))
        return token;
    if (is(&after, ".")) {
        token = token_after(&after);
        after = token_after(&token);
    }
    add_word(type, &token);
    token = after_lengths(token);
    for (after = token_after(&token); is_of_many(type, &after); after = token_after(&token)) {
        add_word(type, &after);
        token = after_lengths(after);
    }
    for (; after.at[0] == '['; after = token_after(&token)) {
        strcpy(type, "[]");
        token = after;
    }
    return token;
}

const struct cast *cast_to(const char *type) {
    char sought[MOST_TYPE + 3];
    sqlite3_snprintf(sizeof sought, sought, " %s ", type);
    for (unsigned i = 0; i < sizeof casts / sizeof casts[0]; i++)
        if (strstr(casts[i].types, sought) != NULL)
            return &casts[i];
    return NULL;
}
