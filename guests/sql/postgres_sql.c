#include "postgres_sql.h"

#include <string.h>

#include "catalog.h"
#include "translate.h"
#include "sets.h"
#include "tokens.h"

/* Translated statements are as long as this at most. */
#define MOST_TRANSLATED (2 * MOST_ASKED)

/* Whether a statement names something of the catalog. */
static int names_catalog(const char *sql, const char *end) {
    char name[64];
    for (struct token token = first_token(sql); token.kind != END_OF_TEXT && token.at < end; token = token_after(&token)) {
        if (!is_name(&token) || token.length >= sizeof name)
            continue;
        copy_name(&token, name, sizeof name);
        if (is_of_catalog(name))
            return 1;
    }
    return 0;
}

int is_for_postgres(const struct statement *statement, const char *sql) {
    return statement->kind == PLAIN && strcmp(statement->tag, "CREATE TABLE") == 0 && has_serial(sql);
}

/* Makes the tables of functions that make rows, which are named in a translated text. Answers whether there was memory. */
static int make_sets(sqlite3 *database, const struct translation *translation) {
    for (const char *name = translation->sets.bytes; name != NULL && name < translation->sets.bytes + translation->sets.length;
         name += strlen(name) + 1)
        if (!set_make(database, name))
            return 0;
    return 1;
}

static int compile(struct session *session, const char *sql, const struct translation *translation, sqlite3_stmt **prepared) {
    if (!session->has_catalog)
        session->has_catalog = catalog_make(session) && set_make(session->database, "unnest value ordinality");
    if (!session->has_catalog || !make_sets(session->database, translation))
        return SQLITE_NOMEM;
    return sqlite3_prepare_v2(session->database, sql, -1, prepared, NULL);
}

int prepare_as_postgres(struct session *session, const char *sql, const char *end, sqlite3_stmt **prepared, const char **after,
                        struct failure *failure) {
    struct text text = {.most = MOST_TRANSLATED};
    struct translation translation;
    int said = SQLITE_ERROR;
    translate(sql, end, &text, &translation);
    *after = translation.after;
    if (translation.code != NULL)
        set_failure(failure, translation.code, translation.why);
    else if (translation.is_other || names_catalog(sql, *after))
        said = compile(session, text.bytes, &translation, prepared);
    text_drop(&translation.sets);
    text_drop(&text);
    return said;
}
