#include "table.h"

#include <string.h>

/* A value as SQLite writes it. Where there is no memory for that the text has none either. */
static void add_value(struct text *text, sqlite3_stmt *prepared, int column) {
    const char *value = (const char *)sqlite3_column_text(prepared, column);
    if (value == NULL && sqlite3_column_type(prepared, column) != SQLITE_NULL)
        text->is_full = NO_MEMORY;
    add_bytes(text, value, (uint32_t)sqlite3_column_bytes(prepared, column));
}

void add_row(struct text *text, sqlite3_stmt *prepared) {
    for (int i = 0; i < sqlite3_column_count(prepared); i++) {
        add(text, i == 0 ? "" : "\t");
        add_value(text, prepared, i);
    }
    add(text, "\n");
}

/* A character, or, in place of a byte that begins none, the one that stands for what can't be read. Answers how many bytes it had. */
static uint32_t add_character(struct text *text, const char *bytes, uint32_t count) {
    uint32_t length = character(bytes, count);
    if (length == 0)
        add(text, "\xef\xbf\xbd");
    add_bytes(text, bytes, length);
    return length == 0 ? 1 : length;
}

void add_json_string(struct text *text, const char *bytes, uint32_t count) {
    static const char digits[] = "0123456789abcdef";
    add(text, "\"");
    for (uint32_t i = 0; i < count && !text->is_full; i++) {
        unsigned char c = (unsigned char)bytes[i];
        if (c == '"' || c == '\\')
            add_bytes(text, (char[]){'\\', (char)c}, 2);
        else if (c == '\n')
            add(text, "\\n");
        else if (c < 0x20)
            add_bytes(text, (char[]){'\\', 'u', '0', '0', digits[c >> 4], digits[c & 15]}, 6);
        else
            i += add_character(text, bytes + i, count - i) - 1;
    }
    add(text, "\"");
}

/* A number that isn't finite has no place in JSON: it is null there. Bytes are their digits, after \x as in PostgreSQL. */
static void add_json_value(struct text *text, sqlite3_stmt *prepared, int column) {
    int type = sqlite3_column_type(prepared, column);
    double number = sqlite3_column_double(prepared, column);
    if (type == SQLITE_NULL || (type == SQLITE_FLOAT && number - number != 0)) {
        add(text, "null");
    } else if (type == SQLITE_INTEGER || type == SQLITE_FLOAT) {
        add_value(text, prepared, column);
    } else if (type == SQLITE_TEXT) {
        const char *value = (const char *)sqlite3_column_text(prepared, column);
        if (value == NULL)
            text->is_full = NO_MEMORY;
        else
            add_json_string(text, value, (uint32_t)sqlite3_column_bytes(prepared, column));
    } else {
        const unsigned char *bytes = sqlite3_column_blob(prepared, column);
        add(text, "\"\\\\x");
        for (int i = 0; i < sqlite3_column_bytes(prepared, column) && !text->is_full; i++)
            add_bytes(text, (char[]){"0123456789abcdef"[bytes[i] >> 4], "0123456789abcdef"[bytes[i] & 15]}, 2);
        add(text, "\"");
    }
}

static void add_json_columns(struct text *text, sqlite3_stmt *prepared, int is_next) {
    add(text, is_next ? ",\n{\"columns\": [" : "{\"columns\": [");
    for (int i = 0; i < sqlite3_column_count(prepared); i++) {
        const char *name = sqlite3_column_name(prepared, i);
        add(text, i == 0 ? "" : ", ");
        if (name == NULL)
            text->is_full = NO_MEMORY;
        else
            add_json_string(text, name, (uint32_t)strlen(name));
    }
    add(text, "], \"rows\": [");
}

void add_json_row(struct text *text, sqlite3_stmt *prepared, int is_first, int is_next) {
    if (is_first)
        add_json_columns(text, prepared, is_next);
    add(text, is_first ? "[" : ",\n [");
    for (int i = 0; i < sqlite3_column_count(prepared); i++) {
        add(text, i == 0 ? "" : ", ");
        add_json_value(text, prepared, i);
    }
    add(text, "]");
}

void add_json_end(struct text *text, sqlite3_stmt *prepared, int64_t rows, int64_t changes, int is_next) {
    if (prepared == NULL || sqlite3_column_count(prepared) == 0) {
        add(text, is_next ? ",\n{\"changes\": " : "{\"changes\": ");
        add_number(text, changes);
        add(text, "}");
        return;
    }
    if (rows == 0)
        add_json_columns(text, prepared, is_next);
    add(text, "]}");
}
