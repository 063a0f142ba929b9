#include "copy_rows.h"

#include <string.h>

#include "messages.h"
#include "rows.h"

/* The end of a row. */

/* In text a backslash before it makes it part of a value. */
static uint32_t find_line(struct row_finder *finder, const char *bytes, uint32_t count) {
    while (finder->at < count) {
        const char *end = memchr(bytes + finder->at, '\n', count - finder->at);
        if (end == NULL)
            break;
        uint32_t escapes = 0, at = (uint32_t)(end - bytes);
        while (escapes < at && bytes[at - 1 - escapes] == '\\')
            escapes++;
        finder->at = at + 1;
        if (escapes % 2 == 0)
            return at + 1;
    }
    finder->at = count;
    return 0;
}

/* In CSV quotes do. */
static uint32_t find_line_of_csv(struct row_finder *finder, const struct copy_form *form, const char *bytes, uint32_t count) {
    for (; finder->at < count; finder->at++) {
        char c = bytes[finder->at];
        if (c == '\n' && !finder->is_in_quotes)
            return ++finder->at;
        int is_escape = form->escape != form->quote && c == form->escape && finder->is_in_quotes && !finder->is_after_escape;
        if (c == form->quote && !finder->is_after_escape)
            finder->is_in_quotes = !finder->is_in_quotes;
        finder->is_after_escape = is_escape;
    }
    return 0;
}

/* The length of what stands in binary at the front, by its fields' own lengths. */
static uint32_t find_tuple(const char *bytes, uint32_t count) {
    const uint8_t *from = (const uint8_t *)bytes;
    if (count < 2)
        return 0;
    uint32_t fields = (uint32_t)from[0] << 8 | from[1], at = 2;
    if (fields == 0xffff)
        return 2;
    for (uint32_t i = 0; i < fields; i++) {
        if (count - at < 4)
            return 0;
        uint32_t length = get_32(from + at);
        at += 4;
        if (length == UINT32_MAX)
            continue;
        if (length > count - at)
            return 0;
        at += length;
    }
    return at;
}

uint32_t find_row(struct row_finder *finder, const struct copy_form *form, const char *bytes, uint32_t count) {
    switch (form->kind) {
    case AS_TEXT: return find_line(finder, bytes, count);
    case AS_CSV: return find_line_of_csv(finder, form, bytes, count);
    default: return find_tuple(bytes, count);
    }
}

uint32_t end_of_row(const char *row, uint32_t length) {
    if (length == 0 || row[length - 1] != '\n')
        return 0;
    return length > 1 && row[length - 2] == '\r' ? 2 : 1;
}

uint32_t find_end_mark(const struct copy_form *form, const char *row, uint32_t length) {
    if (form->kind != AS_TEXT)
        return length == 2 && memcmp(row, form->kind == AS_CSV ? "\\." : "\xff\xff", 2) == 0 ? 0 : NO_MARK;
    for (const char *at = row, *end = row + length; (at = memchr(at, '\\', (size_t)(end - at))) != NULL && at + 1 < end; at += 2)
        if (at[1] == '.')
            return (uint32_t)(at - row);
    return NO_MARK;
}

/* Fields. */

#define TOO_MANY "extra data after the last column"
#define TOO_FEW "there are fewer values than columns"

static int is_octal(char c) { return c >= '0' && c <= '7'; }

static int digit_of(char c) { return c >= '0' && c <= '9' ? c - '0' : (c | 32) >= 'a' && (c | 32) <= 'f' ? (c | 32) - 'a' + 10 : -1; }

/* What stands after a backslash. Answers what is after it. */
static const char *read_escape(const char *at, const char *end, char *to) {
    static const char letters[] = "bfnrtv", meant[] = "\b\f\n\r\t\v";
    const char *letter = *at == '\0' ? NULL : strchr(letters, *at);
    int value = 0, digits = 0;
    if (is_octal(*at)) {
        for (; digits < 3 && at < end && is_octal(*at); digits++)
            value = value << 3 | (*at++ - '0');
        *to = (char)value;
        return at;
    }
    if (*at == 'x' && at + 1 < end && digit_of(at[1]) >= 0) {
        for (at++; digits < 2 && at < end && digit_of(*at) >= 0; digits++)
            value = value << 4 | digit_of(*at++);
        *to = (char)value;
        return at;
    }
    *to = letter == NULL ? *at : meant[letter - letters];
    return at + 1;
}

/* Whether a field that begins here is what stands for no value, as it came. */
static int is_null(const struct copy_form *form, const char *at, const char *end) {
    uint32_t length = form->null_length;
    return (uint32_t)(end - at) >= length && memcmp(at, form->null, length) == 0
           && (at + length == end || at[length] == form->delimiter);
}

static const char *read_text_row(const struct copy_form *form, const struct copy_columns *columns, char *row, uint32_t length,
                                 struct field *fields) {
    const char *at = row, *end = row + length;
    char *to = row, delimiter = form->delimiter;
    for (int count = 0;; at++) {
        char *begun = to;
        int has_none = is_null(form, at, end);
        while (at < end && *at != delimiter) {
            if (*at != '\\') {
                *to++ = *at++;
            } else if (at + 1 == end) {
                at++;
            } else {
                at = read_escape(at + 1, end, to++);
            }
        }
        if (count == columns->count)
            return TOO_MANY;
        fields[count++] = (struct field){has_none ? NULL : begun, (uint32_t)(to - begun)};
        if (at == end)
            return count < columns->count ? TOO_FEW : NULL;
    }
}

/* What stands between quotes. Answers what is after it, or NULL where they aren't closed. */
static const char *read_quoted(const struct copy_form *form, const char *at, const char *end, char **to) {
    for (; at < end; at++) {
        if (*at == form->escape && at + 1 < end && (at[1] == form->escape || at[1] == form->quote))
            *(*to)++ = *++at;
        else if (*at == form->quote)
            return at + 1;
        else
            *(*to)++ = *at;
    }
    return NULL;
}

static const char *read_csv_row(const struct copy_form *form, const struct copy_columns *columns, char *row, uint32_t length,
                                struct field *fields) {
    const char *at = row, *end = row + length;
    char *to = row;
    for (int count = 0;; at++) {
        char *begun = to;
        int is_quoted = 0, has_none = is_null(form, at, end);
        while (at != NULL && at < end && *at != form->delimiter) {
            if (*at == form->quote) {
                is_quoted = 1;
                at = read_quoted(form, at + 1, end, &to);
            } else {
                *to++ = *at++;
            }
        }
        if (at == NULL)
            return "a quote isn't closed";
        if (count == columns->count)
            return TOO_MANY;
        uint32_t has = (uint32_t)(to - begun);
        const struct copy_column *column = &columns->of[count];
        int is_like_none = has == form->null_length && memcmp(begun, form->null, has) == 0;
        has_none = is_quoted ? column->is_also_null && is_like_none : has_none && !column->is_not_null;
        fields[count++] = (struct field){has_none ? NULL : begun, has};
        if (at == end)
            return count < columns->count ? TOO_FEW : NULL;
    }
}

static const char *read_tuple(const struct copy_columns *columns, const char *row, uint32_t length, struct field *fields) {
    struct reader reader = {(const uint8_t *)row, (const uint8_t *)row + length, 0};
    uint32_t count = read_16(&reader);
    if (count != (uint32_t)columns->count)
        return count < (uint32_t)columns->count ? TOO_FEW : TOO_MANY;
    for (uint32_t i = 0; i < count; i++)
        fields[i].at = (const char *)read_value(&reader, &fields[i].length);
    return is_at_end(&reader) ? NULL : "a row is not as the binary format has it";
}

const char *read_row(const struct copy_form *form, const struct copy_columns *columns, char *row, uint32_t length, struct field *fields) {
    switch (form->kind) {
    case AS_TEXT: return read_text_row(form, columns, row, length, fields);
    case AS_CSV: return read_csv_row(form, columns, row, length, fields);
    default: return read_tuple(columns, row, length, fields);
    }
}

/* Writing. */

static void add_escaped(struct text *out, const struct copy_form *form, const char *bytes, uint32_t count) {
    static const char letters[] = "bfnrtv\\", meant[] = "\b\f\n\r\t\v\\";
    const char *begun = bytes, *end = bytes + count;
    for (; bytes < end; bytes++) {
        const char *found = (uint8_t)*bytes > '\r' && *bytes != '\\' ? NULL : memchr(meant, *bytes, sizeof meant - 1);
        if (found == NULL && *bytes != form->delimiter)
            continue;
        add_bytes(out, begun, (uint32_t)(bytes - begun));
        add_bytes(out, (char[]){'\\', found == NULL ? *bytes : letters[found - meant]}, 2);
        begun = bytes + 1;
    }
    add_bytes(out, begun, (uint32_t)(end - begun));
}

static int needs_quotes(const struct copy_form *form, const char *bytes, uint32_t count, int is_only) {
    if ((count == form->null_length && memcmp(bytes, form->null, count) == 0) || (is_only && find_end_mark(form, bytes, count) == 0))
        return 1;
    for (uint32_t i = 0; i < count; i++)
        if (bytes[i] == form->delimiter || bytes[i] == form->quote || bytes[i] == '\n' || bytes[i] == '\r')
            return 1;
    return 0;
}

static void add_csv(struct text *out, const struct copy_form *form, const char *bytes, uint32_t count, int is_quoted) {
    if (!is_quoted) {
        add_bytes(out, bytes, count);
        return;
    }
    add_bytes(out, &form->quote, 1);
    for (uint32_t i = 0; i < count && !out->is_full; i++) {
        if (bytes[i] == form->quote || bytes[i] == form->escape)
            add_bytes(out, &form->escape, 1);
        add_bytes(out, &bytes[i], 1);
    }
    add_bytes(out, &form->quote, 1);
}

/* A value's text: as SQLite writes it, and bytes by their digits. Answers NULL where there was no memory. */
static const char *text_of(sqlite3_stmt *prepared, int column, struct text *digits, uint32_t *count) {
    if (sqlite3_column_type(prepared, column) != SQLITE_BLOB) {
        const char *text = (const char *)sqlite3_column_text(prepared, column);
        *count = (uint32_t)sqlite3_column_bytes(prepared, column);
        return text;
    }
    const uint8_t *bytes = sqlite3_column_blob(prepared, column);
    int length = sqlite3_column_bytes(prepared, column);
    *digits = (struct text){.most = 1u << 20};
    add(digits, "\\x");
    for (int i = 0; i < length && !digits->is_full; i++)
        add_bytes(digits, (char[]){"0123456789abcdef"[bytes[i] >> 4], "0123456789abcdef"[bytes[i] & 15]}, 2);
    *count = digits->length;
    return digits->is_full ? NULL : digits->bytes;
}

static void write_value(struct text *out, const struct copy_form *form, const struct copy_columns *columns, sqlite3_stmt *prepared, int i) {
    struct text digits = {0};
    uint32_t count;
    if (sqlite3_column_type(prepared, i) == SQLITE_NULL) {
        add_bytes(out, form->null, form->null_length);
        return;
    }
    const char *text = text_of(prepared, i, &digits, &count);
    if (text == NULL)
        out->is_full = NO_MEMORY;
    else if (form->kind == AS_TEXT)
        add_escaped(out, form, text, count);
    else
        add_csv(out, form, text, count, columns->of[i].is_quoted || needs_quotes(form, text, count, columns->count == 1));
    text_drop(&digits);
}

void write_row(struct text *out, const struct copy_form *form, const struct copy_columns *columns, sqlite3_stmt *prepared) {
    for (int i = 0; i < columns->count && !out->is_full; i++) {
        add_bytes(out, &form->delimiter, i == 0 ? 0 : 1);
        write_value(out, form, columns, prepared, i);
    }
    add(out, "\n");
}

void write_names(struct text *out, const struct copy_form *form, const struct copy_columns *columns) {
    for (int i = 0; i < columns->count; i++) {
        const char *name = columns->of[i].name;
        uint32_t count = (uint32_t)strlen(name);
        add_bytes(out, &form->delimiter, i == 0 ? 0 : 1);
        if (form->kind == AS_TEXT)
            add_escaped(out, form, name, count);
        else
            add_csv(out, form, name, count, needs_quotes(form, name, count, columns->count == 1));
    }
    add(out, "\n");
}
