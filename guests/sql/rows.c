#include "rows.h"

#include <string.h>

#include "arrays.h"
#include "catalog_queries.h"
#include "messages.h"

enum { SAW_INTEGER = 1, SAW_FLOAT = 2, SAW_TEXT = 4, SAW_BLOB = 8, SAW_TEXTS = 16, SAW_NUMBERS = 32 };

/* Whether a declared type has a word in it, whatever its letters. */
static int has_word(const char *declared, const char *word) {
    size_t length = strlen(word);
    for (; *declared != '\0'; declared++)
        if (sqlite3_strnicmp(declared, word, (int)length) == 0)
            return 1;
    return 0;
}

/* The rules are those of affinity, https://sqlite.org/datatype3.html. */
uint32_t type_of_declaration(const char *declared) {
    if (declared == NULL || *declared == '\0')
        return TEXT;
    if (has_word(declared, "INT"))
        return INT8;
    if (has_word(declared, "CHAR") || has_word(declared, "CLOB") || has_word(declared, "TEXT"))
        return TEXT;
    if (has_word(declared, "BLOB") || has_word(declared, "BYTEA"))
        return BYTEA;
    if (has_word(declared, "REAL") || has_word(declared, "FLOA") || has_word(declared, "DOUB") || has_word(declared, "NUMERIC")
        || has_word(declared, "DECIMAL"))
        return FLOAT8;
    return has_word(declared, "BOOL") ? INT8 : TEXT;
}

/* Columns of the catalog have types of their own. */
uint32_t declared_type(sqlite3_stmt *prepared, int column) {
    const char *declared = sqlite3_column_decltype(prepared, column);
    if (declared == NULL || strncmp(declared, "pg_", 3) != 0)
        return type_of_declaration(declared);
    return strcmp(declared, TRUTH) == 0 ? BOOL : strcmp(declared, NUMBERS) == 0 ? INT2_ARRAY : TEXT_ARRAY;
}

static int is_of_catalog(uint32_t type) { return type == BOOL || type == INT2_ARRAY || type == TEXT_ARRAY; }

void columns_start(struct columns *columns, sqlite3_stmt *prepared, const uint8_t *binary, const uint32_t *told) {
    static const uint8_t none[64];
    *columns = (struct columns){.binary = binary, .told = told};
    columns->seen.most = 1u << 16;
    for (int left = sqlite3_column_count(prepared); left > 0; left -= (int)sizeof none)
        add_bytes(&columns->seen, none, left < (int)sizeof none ? (uint32_t)left : (uint32_t)sizeof none);
}

void columns_drop(struct columns *columns) { text_drop(&columns->seen); }

uint32_t type_of_column(const struct columns *columns, sqlite3_stmt *prepared, int column) {
    if (columns->told != NULL)
        return columns->told[column];
    if (is_of_catalog(declared_type(prepared, column)))
        return declared_type(prepared, column);
    switch (columns->seen.bytes[column]) {
    case 0: return declared_type(prepared, column);
    case SAW_INTEGER: return declared_type(prepared, column) == FLOAT8 ? FLOAT8 : INT8;
    case SAW_FLOAT:
    case SAW_INTEGER | SAW_FLOAT: return FLOAT8;
    case SAW_BLOB: return BYTEA;
    case SAW_TEXTS:
    case SAW_TEXTS | SAW_NUMBERS: return TEXT_ARRAY;
    case SAW_NUMBERS: return INT8_ARRAY;
    default: return TEXT;
    }
}

static uint64_t bits_of(double value) {
    uint64_t bits;
    memcpy(&bits, &value, sizeof bits);
    return bits;
}

static void say_blob(struct text *out, sqlite3_stmt *prepared, int column) {
    const uint8_t *bytes = sqlite3_column_blob(prepared, column);
    uint32_t count = (uint32_t)sqlite3_column_bytes(prepared, column);
    add_32(out, 2 + 2 * count);
    add(out, "\\x");
    for (uint32_t i = 0; i < count && !out->is_full; i++)
        add_bytes(out, (char[]){"0123456789abcdef"[bytes[i] >> 4], "0123456789abcdef"[bytes[i] & 15]}, 2);
}

static void say_bytes(struct text *out, const void *bytes, uint32_t count) {
    add_32(out, count);
    add_bytes(out, bytes, count);
}

/* A value as SQLite writes it. Where there is no memory for that the answer has none either. */
static void say_text(struct text *out, sqlite3_stmt *prepared, int column) {
    const void *bytes = sqlite3_column_text(prepared, column);
    if (bytes == NULL)
        out->is_full = NO_MEMORY;
    say_bytes(out, bytes, (uint32_t)sqlite3_column_bytes(prepared, column));
}

/* A value in binary, of its column's type so far. */
static void say_binary(struct text *out, sqlite3_stmt *prepared, struct columns *columns, int column, int type) {
    uint32_t wanted = type_of_column(columns, prepared, column);
    if (wanted == INT8 && type == SQLITE_INTEGER) {
        add_32(out, 8);
        add_64(out, (uint64_t)sqlite3_column_int64(prepared, column));
    } else if (wanted == FLOAT8 && (type == SQLITE_FLOAT || type == SQLITE_INTEGER)) {
        add_32(out, 8);
        add_64(out, bits_of(sqlite3_column_double(prepared, column)));
    } else if (wanted == BOOL) {
        say_bytes(out, sqlite3_column_int64(prepared, column) ? "\1" : "\0", 1);
    } else if (wanted == BYTEA) {
        const void *bytes = sqlite3_column_blob(prepared, column);
        say_bytes(out, bytes, (uint32_t)sqlite3_column_bytes(prepared, column));
    } else if (wanted == TEXT) {
        say_text(out, prepared, column);
    } else {
        columns->is_mixed = 1;
        add_32(out, 0xffffffff);
    }
}

/* What is seen of a column in a value of a type. */
static uint8_t bit_of(sqlite3_stmt *prepared, int column, int type) {
    static const uint8_t bits[] = {[SQLITE_INTEGER] = SAW_INTEGER, [SQLITE_FLOAT] = SAW_FLOAT, [SQLITE_TEXT] = SAW_TEXT,
                                   [SQLITE_BLOB] = SAW_BLOB, [SQLITE_NULL] = 0};
    unsigned kind = type == SQLITE_TEXT ? sqlite3_value_subtype(sqlite3_column_value(prepared, column)) : 0;
    return kind == ARRAY_OF_TEXTS ? SAW_TEXTS : kind == ARRAY_OF_NUMBERS ? SAW_NUMBERS : bits[type];
}

static void say_value(struct text *out, sqlite3_stmt *prepared, struct columns *columns, int column) {
    int type = sqlite3_column_type(prepared, column);
    uint8_t *seen = (uint8_t *)columns->seen.bytes + column, before = *seen;
    int is_binary = columns->binary != NULL && columns->binary[column];
    *seen |= bit_of(prepared, column, type);
    if (type == SQLITE_NULL) {
        add_32(out, 0xffffffff);
    } else if (is_binary) {
        /* What was written before was of the type that was known then. */
        if (before != 0 && before != *seen && columns->told == NULL && declared_type(prepared, column) != FLOAT8)
            columns->is_mixed = 1;
        say_binary(out, prepared, columns, column, type);
    } else if (type == SQLITE_BLOB) {
        say_blob(out, prepared, column);
    } else if (type == SQLITE_INTEGER && declared_type(prepared, column) == BOOL) {
        say_bytes(out, sqlite3_column_int64(prepared, column) ? "t" : "f", 1);
    } else {
        say_text(out, prepared, column);
    }
}

void say_row(struct text *out, sqlite3_stmt *prepared, struct columns *columns) {
    int count = sqlite3_column_count(prepared);
    columns->is_changed |= columns->seen.length != (uint32_t)count;
    if (columns->is_changed)
        out->is_full = NO_MEMORY;
    uint32_t at = message_begin(out, 'D');
    add_16(out, (uint32_t)count);
    for (int i = 0; i < count && !out->is_full; i++)
        say_value(out, prepared, columns, i);
    message_end(out, at);
}

static int size_of(uint32_t type) { return type == INT8 || type == FLOAT8 ? 8 : type == BOOL ? 1 : 0xffff; }

uint32_t say_columns(struct text *out, sqlite3_stmt *prepared, const struct columns *columns) {
    uint32_t at = message_begin(out, 'T');
    int count = sqlite3_column_count(prepared);
    add_16(out, (uint32_t)count);
    for (int i = 0; i < count && !out->is_full; i++) {
        uint32_t type = columns == NULL ? declared_type(prepared, i) : type_of_column(columns, prepared, i);
        const char *name = sqlite3_column_name(prepared, i);
        if (name == NULL)
            out->is_full = NO_MEMORY;
        add_string(out, name == NULL ? "" : name);
        add_32(out, 0);
        add_16(out, 0);
        add_32(out, type);
        add_16(out, (uint32_t)size_of(type));
        add_32(out, 0xffffffff);
        add_16(out, columns != NULL && columns->binary != NULL && columns->binary[i]);
    }
    message_end(out, at);
    return at;
}

void retype_columns(struct text *out, uint32_t at, sqlite3_stmt *prepared, const struct columns *columns) {
    char *field = out->bytes + at + 7;
    for (int i = 0; i < sqlite3_column_count(prepared); i++) {
        uint32_t type = type_of_column(columns, prepared, i);
        field += strlen(field) + 1 + 6;
        put_32((uint8_t *)field, type);
        field[4] = (char)(size_of(type) >> 8);
        field[5] = (char)size_of(type);
        field += 12;
    }
}
