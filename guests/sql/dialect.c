#include "dialect.h"

#include <string.h>

#include "lexer.h"
#include "sqlite3.h"

/* A table's name as it is spelled, without the schema that PostgreSQL has where nothing is said. */
struct name {
    const char *at;
    uint32_t length;
    char last[MOST_NAME]; /* without quotes */
};

static int takes_qualified(const char **from, struct name *name) {
    const char *at = *from, *after;
    char first[MOST_NAME];
    name->at = after_blanks(at);
    if (!takes_name(&at, name->last))
        return 0;
    after = at;
    strcpy(first, name->last);
    if (takes(&after, ".")) {
        if (sqlite3_stricmp(first, "public") == 0)
            name->at = after_blanks(after);
        if (!takes_name(&after, name->last))
            return 0;
        at = after;
    }
    name->length = (uint32_t)(at - name->at);
    *from = at;
    return 1;
}

static int is_end(const char *at, const struct statement *statement) {
    at = after_blanks(at);
    return at >= statement->end || *at == ';' || *at == '\0';
}

static void add_quoted(struct text *to, const char *name) {
    add(to, "\"");
    for (; *name != '\0'; name++)
        add_bytes(to, (char[]){*name, '"'}, *name == '"' ? 2 : 1);
    add(to, "\"");
}

/* After the parenthesis that closes the one that stands here, or NULL. */
static const char *after_parentheses(const char *at) {
    int depth = 0;
    at = after_blanks(at);
    do {
        const char *after = after_quoted(at);
        depth += after != at ? 0 : *at == '(' ? 1 : *at == ')' ? -1 : 0;
        at = after != at ? after : at + 1;
    } while (depth > 0 && *at != '\0');
    return depth == 0 ? at : NULL;
}

static void set_tag(struct statement *statement, const char *tag) {
    strcpy(statement->tag, tag);
    statement->is_counted = 0;
}

/* DROP of several at once: each by itself, in the one transaction that a query is. */
static void spell_drop(struct statement *statement, struct text *to) {
    static const char *const kinds[] = {"TABLE", "VIEW", "INDEX", "TRIGGER", NULL};
    const char *at = statement->begin;
    struct name name;
    int kind = 0;
    takes(&at, "DROP");
    while (kinds[kind] != NULL && !takes(&at, kinds[kind]))
        kind++;
    if (kinds[kind] == NULL)
        return;
    int is_if = takes(&at, "IF") && takes(&at, "EXISTS");
    do {
        if (!takes_qualified(&at, &name)) {
            text_cut(to, 0);
            return;
        }
        add(to, "DROP ");
        add(to, kinds[kind]);
        add(to, is_if ? " IF EXISTS " : " ");
        add_bytes(to, name.at, name.length);
        add(to, ";");
    } while (takes(&at, ","));
    if (!takes(&at, "CASCADE"))
        takes(&at, "RESTRICT");
    if (!is_end(at, statement))
        text_cut(to, 0);
}

static void spell_truncate(struct statement *statement, struct text *to) {
    const char *at = statement->begin;
    struct name name;
    takes(&at, "TRUNCATE");
    takes(&at, "TABLE");
    do {
        takes(&at, "ONLY");
        if (!takes_qualified(&at, &name)) {
            text_cut(to, 0);
            return;
        }
        takes(&at, "*");
        add(to, "DELETE FROM ");
        add_bytes(to, name.at, name.length);
        add(to, ";");
    } while (takes(&at, ","));
    if (takes(&at, "RESTART") || takes(&at, "CONTINUE"))
        takes(&at, "IDENTITY");
    if (!takes(&at, "CASCADE"))
        takes(&at, "RESTRICT");
    if (is_end(at, statement))
        set_tag(statement, "TRUNCATE TABLE");
    else
        text_cut(to, 0);
}

/* VACUUM of a table has nothing to do: SQLite writes over what is free. With ANALYZE that is done. */
static void spell_vacuum(struct statement *statement, struct text *to) {
    static const char *const words[] = {"FULL", "FREEZE", "VERBOSE", NULL};
    const char *at = statement->begin, *after;
    struct name name;
    takes(&at, "VACUUM");
    int is_analyze = 0, is_postgres = 0;
    after = at;
    if (takes(&after, "(")) {
        const char *end = after_parentheses(at);
        for (; end != NULL && after < end && !is_analyze; after++)
            is_analyze = !is_in_word(after[-1]) && takes(&after, "ANALYZE");
        at = end == NULL ? at : end;
        is_postgres = 1;
    }
    for (int i = 0; words[i] != NULL; i++)
        is_postgres |= takes(&at, words[i]);
    is_analyze |= takes(&at, "ANALYZE") || takes(&at, "ANALYSE");
    after = at;
    int is_named = takes_qualified(&after, &name);
    int is_own = is_named && (sqlite3_stricmp(name.last, "main") == 0 || sqlite3_stricmp(name.last, "temp") == 0
                              || sqlite3_stricmp(name.last, "into") == 0);
    if (!is_postgres && !is_analyze && (!is_named || is_own))
        return;
    if (is_analyze) {
        add(to, "ANALYZE ");
        add_bytes(to, name.at, is_named ? name.length : 0);
    } else if (is_named) {
        statement->kind = PASSED;
    } else {
        add(to, "VACUUM");
    }
    set_tag(statement, "VACUUM");
}

/* What stands behind the columns of a new table, of how it is to be stored. */
static void spell_create(struct statement *statement, struct text *to) {
    const char *at = statement->begin, *end;
    struct name name;
    takes(&at, "CREATE");
    int is_unlogged = takes(&at, "UNLOGGED");
    if (!is_unlogged && !takes(&at, "TEMPORARY"))
        takes(&at, "TEMP");
    const char *head = at;
    if (!takes(&at, "TABLE"))
        return;
    if (takes(&at, "IF")) {
        takes(&at, "NOT");
        takes(&at, "EXISTS");
    }
    if (!takes_qualified(&at, &name) || *after_blanks(at) != '(' || (end = after_parentheses(at)) == NULL)
        return;
    at = end;
    int is_stored = takes(&at, "WITH") || takes(&at, "TABLESPACE") || takes(&at, "USING");
    if (!is_stored && !is_unlogged)
        return;
    const char *begun = is_unlogged ? head : statement->begin;
    add(to, is_unlogged ? "CREATE " : "");
    add_bytes(to, begun, (uint32_t)((is_stored ? end : statement->end) - begun));
    set_tag(statement, "CREATE TABLE");
}

/* A key that a table gets after its rows is a unique index here. */
static void spell_alter(struct statement *statement, struct text *to) {
    const char *at = statement->begin, *columns, *end;
    struct name table;
    char key[MOST_NAME + 8] = "";
    takes(&at, "ALTER");
    if (!takes(&at, "TABLE"))
        return;
    if (takes(&at, "IF"))
        takes(&at, "EXISTS");
    takes(&at, "ONLY");
    if (!takes_qualified(&at, &table) || !takes(&at, "ADD") || (takes(&at, "CONSTRAINT") && !takes_name(&at, key)))
        return;
    int is_primary = takes(&at, "PRIMARY") && takes(&at, "KEY");
    if (!is_primary && !takes(&at, "UNIQUE"))
        return;
    columns = after_blanks(at);
    if (*columns != '(' || (end = after_parentheses(columns)) == NULL)
        return;
    if (key[0] == '\0')
        sqlite3_snprintf(sizeof key, key, "%s_%s", table.last, is_primary ? "pkey" : "key");
    add(to, "CREATE UNIQUE INDEX ");
    add_quoted(to, key);
    add(to, " ON ");
    add_quoted(to, table.last);
    add_bytes(to, columns, (uint32_t)(end - columns));
    set_tag(statement, "ALTER TABLE");
}

void spell(struct statement *statement, struct text *to) {
    static const struct {
        const char *word;
        void (*spell)(struct statement *statement, struct text *to);
    } forms[] = {{"DROP", spell_drop},     {"TRUNCATE", spell_truncate}, {"VACUUM", spell_vacuum},
                 {"CREATE", spell_create}, {"ALTER", spell_alter}};
    const char *at = statement->begin;
    if (statement->kind != PLAIN)
        return;
    text_cut(to, 0);
    for (unsigned i = 0; strchr("dtvcaDTVCA", *at) != NULL && i < sizeof forms / sizeof forms[0]; i++)
        if (takes(&at, forms[i].word)) {
            forms[i].spell(statement, to);
            break;
        }
    if (to->length == 0)
        return;
    add_bytes(to, "", 1);
    statement->sql = to->bytes;
}
