#include "dump.h"

#include <string.h>

#include "session.h"

/* A piece, and a statement of many rows, are no longer than this and one row. */
#define LONG_ENOUGH (8 * 1024)

/* The most of a row's text: two digits for each byte of its values. */
#define MOST_PIECE (4 * MOST_VALUE_BYTES)

struct dump {
    sqlite3 *database;
    piece_taker *take;
    void *with;
    struct text piece;
};

static int give(struct dump *dump) {
    if (dump->piece.is_full)
        return dump->piece.is_full == TOO_LONG ? SQLITE_TOOBIG : SQLITE_NOMEM;
    int is_wanted = dump->take(dump->with, &dump->piece);
    text_cut(&dump->piece, 0);
    return is_wanted ? SQLITE_OK : SQLITE_ABORT;
}

static int say(struct dump *dump, const char *words) {
    add(&dump->piece, words);
    return dump->piece.length < LONG_ENOUGH ? SQLITE_OK : give(dump);
}

/* Between two marks, of which each that is within is there twice. */
static void add_quoted(struct text *text, const char *bytes, uint32_t count, char mark) {
    add_bytes(text, &mark, 1);
    for (const char *end = bytes + count, *next; bytes < end; bytes = next) {
        const char *found = memchr(bytes, mark, (size_t)(end - bytes));
        next = found == NULL ? end : found + 1;
        add_bytes(text, bytes, (uint32_t)(next - bytes));
        add_bytes(text, &mark, found == NULL ? 0 : 1);
    }
    add_bytes(text, &mark, 1);
}

static void add_name(struct text *text, const char *name) { add_quoted(text, name, (uint32_t)strlen(name), '"'); }

static void add_hex(struct text *text, const uint8_t *bytes, uint32_t count) {
    add(text, "X'");
    for (uint32_t i = 0; i < count && !text->is_full; i++)
        add_bytes(text, (char[]){"0123456789abcdef"[bytes[i] >> 4], "0123456789abcdef"[bytes[i] & 15]}, 2);
    add(text, "'");
}

/* With all digits that it takes to be read as the same again. */
static void add_float(struct text *text, double value) {
    char digits[64];
    if (value - value != 0)
        add(text, value > 0 ? "1e999" : "-1e999");
    else
        add(text, sqlite3_snprintf(sizeof digits, digits, "%!.20g", value));
}

static void add_value(struct text *text, sqlite3_stmt *prepared, int column) {
    int type = sqlite3_column_type(prepared, column);
    if (type == SQLITE_NULL) {
        add(text, "NULL");
    } else if (type == SQLITE_INTEGER) {
        add_number(text, sqlite3_column_int64(prepared, column));
    } else if (type == SQLITE_FLOAT) {
        add_float(text, sqlite3_column_double(prepared, column));
    } else {
        const char *bytes = sqlite3_column_blob(prepared, column);
        uint32_t count = (uint32_t)sqlite3_column_bytes(prepared, column);
        int is_text = type == SQLITE_TEXT && (count == 0 || is_utf8(bytes, count));
        add(text, is_text || type == SQLITE_BLOB ? "" : "CAST(");
        if (is_text)
            add_quoted(text, bytes, count, '\'');
        else
            add_hex(text, (const uint8_t *)bytes, count);
        add(text, is_text || type == SQLITE_BLOB ? "" : " AS TEXT)");
    }
}

static void add_values(struct text *text, sqlite3_stmt *prepared) {
    for (int i = 0; i < sqlite3_column_count(prepared); i++) {
        add(text, i == 0 ? "(" : ",");
        add_value(text, prepared, i);
    }
    add(text, ")");
}

/* Prepares a statement, whose text goes then. */
static int prepare_text(sqlite3 *database, struct text *sql, sqlite3_stmt **prepared) {
    add_bytes(sql, "", 1);
    int said = sql->is_full ? SQLITE_NOMEM : sqlite3_prepare_v2(database, sql->bytes, -1, prepared, NULL);
    text_drop(sql);
    return said;
}

/* A query for the rows of a table, without the columns that are worked out. */
static int prepare_rows(sqlite3 *database, const char *table, sqlite3_stmt **rows) {
    struct text sql = {.most = MOST_ASKED};
    sqlite3_stmt *columns = NULL;
    add(&sql, "PRAGMA table_info(");
    add_name(&sql, table);
    add(&sql, ")");
    int said = prepare_text(database, &sql, &columns);
    sql = (struct text){.most = MOST_ASKED};
    add(&sql, "SELECT ");
    for (int i = 0; said == SQLITE_OK && sqlite3_step(columns) == SQLITE_ROW; i++) {
        add(&sql, i == 0 ? "" : ",");
        add_name(&sql, (const char *)sqlite3_column_text(columns, 1));
    }
    add(&sql, " FROM ");
    add_name(&sql, table);
    int ended = sqlite3_finalize(columns);
    if (said != SQLITE_OK || ended != SQLITE_OK) {
        text_drop(&sql);
        return said != SQLITE_OK ? said : ended;
    }
    return prepare_text(database, &sql, rows);
}

/* The rows of a table, many in a statement. */
static int say_rows(struct dump *dump, const char *table) {
    sqlite3_stmt *rows = NULL;
    int said = prepare_rows(dump->database, table, &rows), is_open = 0, came;
    uint32_t begun = 0;
    while (said == SQLITE_OK && (came = sqlite3_step(rows)) == SQLITE_ROW) {
        if (!is_open) {
            begun = dump->piece.length;
            add(&dump->piece, "INSERT INTO ");
            add_name(&dump->piece, table);
            add(&dump->piece, " VALUES");
        }
        add(&dump->piece, is_open ? ",\n" : "\n");
        add_values(&dump->piece, rows);
        is_open = dump->piece.length - begun < LONG_ENOUGH;
        said = is_open ? SQLITE_OK : say(dump, ";\n");
    }
    if (said == SQLITE_OK && is_open)
        said = say(dump, ";\n");
    int ended = sqlite3_finalize(rows);
    return said != SQLITE_OK ? said : ended;
}

/* A table and its rows. SQLite has tables of its own: of these it makes one again with the first number that it gives, and one when it is
   told to analyze; others it needs none of. */
static int say_table(struct dump *dump, const char *name, const char *sql) {
    int is_own = sqlite3_strnicmp(name, "sqlite_", 7) == 0, said;
    if (strcmp(name, "sqlite_sequence") == 0)
        said = say(dump, "DELETE FROM sqlite_sequence;\n");
    else if (strcmp(name, "sqlite_stat1") == 0)
        said = say(dump, "ANALYZE sqlite_schema;\n");
    else if (is_own)
        return SQLITE_OK;
    else if ((said = say(dump, sql)) == SQLITE_OK)
        said = say(dump, ";\n");
    return said == SQLITE_OK ? say_rows(dump, name) : said;
}

static int say_object(struct dump *dump, sqlite3_stmt *objects) {
    const char *type = (const char *)sqlite3_column_text(objects, 0), *name = (const char *)sqlite3_column_text(objects, 1);
    const char *sql = (const char *)sqlite3_column_text(objects, 2);
    if (type == NULL || name == NULL || sql == NULL)
        return SQLITE_NOMEM;
    if (strcmp(type, "table") == 0)
        return say_table(dump, name, sql);
    int said = say(dump, sql);
    return said == SQLITE_OK ? say(dump, ";\n") : said;
}

static int say_all(struct dump *dump) {
    sqlite3_stmt *objects = NULL;
    int said = sqlite3_prepare_v2(dump->database,
                                  "SELECT type, name, sql FROM sqlite_schema WHERE sql IS NOT NULL "
                                  "ORDER BY type <> 'table', name = 'sqlite_sequence', type DESC, rowid",
                                  -1, &objects, NULL);
    if (said == SQLITE_OK)
        said = say(dump, "PRAGMA foreign_keys=OFF;\nBEGIN TRANSACTION;\n");
    while (said == SQLITE_OK && sqlite3_step(objects) == SQLITE_ROW)
        said = say_object(dump, objects);
    int ended = sqlite3_finalize(objects);
    if (said == SQLITE_OK && (said = ended) == SQLITE_OK)
        said = say(dump, "COMMIT;\n");
    return said == SQLITE_OK ? give(dump) : said;
}

int dump(sqlite3 *database, piece_taker *take, void *with) {
    struct dump dump = {database, take, with, {.most = MOST_PIECE}};
    int said = say_all(&dump);
    text_drop(&dump.piece);
    return said;
}
