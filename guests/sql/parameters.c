#include "parameters.h"

#include <errno.h>
#include <stdlib.h>
#include <string.h>

#include "rows.h"

#define MOST_DIGITS 64
#define BAD_TEXT "22P02"
#define OUT_OF_RANGE "22003"
#define BAD_BINARY "22P03"

int number_of_place(sqlite3_stmt *prepared, int place) {
    const char *name = sqlite3_bind_parameter_name(prepared, place);
    if (name == NULL || (name[0] != '$' && name[0] != '?'))
        return place;
    int number = atoi(name + 1);
    return number > 0 ? number : place;
}

int parameters_of(sqlite3_stmt *prepared) {
    int most = 0;
    for (int place = 1; place <= sqlite3_bind_parameter_count(prepared); place++) {
        int number = number_of_place(prepared, place);
        most = number > most ? number : most;
    }
    return most;
}

static const char *said(int answer) { return answer == SQLITE_OK ? NULL : answer == SQLITE_NOMEM ? "53200" : "54000"; }

/* The value as a string of its own, without blanks around it. Answers whether it has room, and isn't empty. */
static int to_string(const struct value *value, char string[MOST_DIGITS]) {
    const uint8_t *from = value->bytes, *end = from + value->count;
    while (from < end && *from == ' ')
        from++;
    while (end > from && end[-1] == ' ')
        end--;
    size_t length = (size_t)(end - from);
    if (length == 0 || length >= MOST_DIGITS)
        return 0;
    memcpy(string, from, length);
    string[length] = '\0';
    return 1;
}

static const char *bind_whole(sqlite3_stmt *prepared, int place, const char *string) {
    char *end;
    errno = 0;
    long long whole = strtoll(string, &end, 10);
    if (*end != '\0')
        return BAD_TEXT;
    return errno != 0 ? OUT_OF_RANGE : said(sqlite3_bind_int64(prepared, place, whole));
}

static const char *bind_floating(sqlite3_stmt *prepared, int place, const char *string) {
    char *end;
    double floating = strtod(string, &end);
    return *end != '\0' ? BAD_TEXT : said(sqlite3_bind_double(prepared, place, floating));
}

static const char *bind_truth(sqlite3_stmt *prepared, int place, const char *string) {
    if (strchr("tTyY1", string[0]) != NULL || sqlite3_stricmp(string, "on") == 0)
        return said(sqlite3_bind_int(prepared, place, 1));
    if (strchr("fFnN0", string[0]) != NULL || sqlite3_stricmp(string, "off") == 0)
        return said(sqlite3_bind_int(prepared, place, 0));
    return BAD_TEXT;
}

static int digit(uint8_t c) { return c >= '0' && c <= '9' ? c - '0' : (c | 32) >= 'a' && (c | 32) <= 'f' ? (c | 32) - 'a' + 10 : -1; }

/* Bytes as text: \x and two digits for each. */
static const char *bind_hex(sqlite3_stmt *prepared, int place, const struct value *value) {
    uint32_t count = value->count / 2;
    if (value->count < 2 || value->count % 2 != 0 || value->bytes[0] != '\\' || value->bytes[1] != 'x')
        return BAD_TEXT;
    uint8_t *bytes = sqlite3_malloc64(count);
    if (bytes == NULL)
        return "53200";
    for (uint32_t i = 1; i < count; i++) {
        int high = digit(value->bytes[2 * i]), low = digit(value->bytes[2 * i + 1]);
        if (high < 0 || low < 0) {
            sqlite3_free(bytes);
            return BAD_TEXT;
        }
        bytes[i - 1] = (uint8_t)(high << 4 | low);
    }
    return said(sqlite3_bind_blob64(prepared, place, bytes, count - 1, sqlite3_free));
}

static const char *bind_bytes(sqlite3_stmt *prepared, int place, const struct value *value) {
    if (!is_utf8((const char *)value->bytes, value->count))
        return "22021";
    return said(sqlite3_bind_text(prepared, place, (const char *)value->bytes, (int)value->count, SQLITE_TRANSIENT));
}

static const char *bind_text(sqlite3_stmt *prepared, int place, const struct value *value) {
    char string[MOST_DIGITS];
    switch (value->type) {
    case INT2:
    case INT4:
    case INT8:
    case OID: return to_string(value, string) ? bind_whole(prepared, place, string) : BAD_TEXT;
    case FLOAT4:
    case FLOAT8: return to_string(value, string) ? bind_floating(prepared, place, string) : BAD_TEXT;
    case NUMERIC:
        if (!to_string(value, string))
            return BAD_TEXT;
        return bind_whole(prepared, place, string) == NULL ? NULL : bind_floating(prepared, place, string);
    case BOOL: return to_string(value, string) ? bind_truth(prepared, place, string) : BAD_TEXT;
    case BYTEA: return bind_hex(prepared, place, value);
    default: return bind_bytes(prepared, place, value);
    }
}

static uint64_t read_number(const struct value *value) {
    uint64_t number = 0;
    for (uint32_t i = 0; i < value->count; i++)
        number = number << 8 | value->bytes[i];
    return number;
}

static const char *bind_binary_floating(sqlite3_stmt *prepared, int place, const struct value *value) {
    uint64_t bits = read_number(value);
    double floating;
    if (value->type == FLOAT4) {
        uint32_t half = (uint32_t)bits;
        float narrow;
        memcpy(&narrow, &half, sizeof narrow);
        floating = narrow;
    } else {
        memcpy(&floating, &bits, sizeof floating);
    }
    return said(sqlite3_bind_double(prepared, place, floating));
}

/* A decimal number in binary: how many digits to the base of 10,000, the weight of the first, the sign, the digits after the point, and
   then the digits. */
static const char *bind_binary_numeric(sqlite3_stmt *prepared, int place, const struct value *value) {
    const uint8_t *at = value->bytes;
    char string[8 * MOST_DIGITS];
    int parts[4], length = 0;
    if (value->count < 8)
        return BAD_BINARY;
    for (int i = 0; i < 4; i++)
        parts[i] = at[2 * i] << 8 | at[2 * i + 1];
    int count = parts[0], weight = (int16_t)parts[1];
    if (value->count != 8 + 2 * (uint32_t)count || (parts[2] != 0 && parts[2] != 0x4000))
        return BAD_BINARY;
    if (count > MOST_DIGITS || weight > MOST_DIGITS || weight < -MOST_DIGITS)
        return OUT_OF_RANGE;
    string[length++] = parts[2] != 0 ? '-' : '+';
    int last = count - 1 - weight > 0 ? count - 1 : weight;
    for (int i = weight < 0 ? weight + 1 : 0; i <= last; i++) {
        int number = i < 0 || i >= count ? 0 : at[8 + 2 * i] << 8 | at[9 + 2 * i];
        if (i == weight + 1)
            string[length++] = '.';
        for (int power = 1000; power > 0; power /= 10)
            string[length++] = (char)('0' + number / power % 10);
    }
    string[length] = '\0';
    return bind_whole(prepared, place, string) == NULL ? NULL : bind_floating(prepared, place, string);
}

static const char *bind_binary(sqlite3_stmt *prepared, int place, const struct value *value) {
    switch (value->type) {
    case BOOL: return value->count != 1 ? BAD_BINARY : said(sqlite3_bind_int(prepared, place, value->bytes[0] != 0));
    case INT2: return value->count != 2 ? BAD_BINARY : said(sqlite3_bind_int(prepared, place, (int16_t)read_number(value)));
    case INT4: return value->count != 4 ? BAD_BINARY : said(sqlite3_bind_int(prepared, place, (int32_t)read_number(value)));
    case OID: return value->count != 4 ? BAD_BINARY : said(sqlite3_bind_int64(prepared, place, (int64_t)read_number(value)));
    case INT8: return value->count != 8 ? BAD_BINARY : said(sqlite3_bind_int64(prepared, place, (int64_t)read_number(value)));
    case FLOAT4: return value->count != 4 ? BAD_BINARY : bind_binary_floating(prepared, place, value);
    case FLOAT8: return value->count != 8 ? BAD_BINARY : bind_binary_floating(prepared, place, value);
    case NUMERIC: return bind_binary_numeric(prepared, place, value);
    case BYTEA: return said(sqlite3_bind_blob64(prepared, place, value->bytes, value->count, SQLITE_TRANSIENT));
    case 0:
    case TEXT:
    case 19:   /* name */
    case 705:  /* unknown */
    case 1042: /* char(n) */
    case 1043: /* varchar */ return bind_bytes(prepared, place, value);
    default: return "0A000";
    }
}

const char *bind_value(sqlite3_stmt *prepared, int place, const struct value *value) {
    if (value->bytes == NULL)
        return said(sqlite3_bind_null(prepared, place));
    return value->is_binary ? bind_binary(prepared, place, value) : bind_text(prepared, place, value);
}
