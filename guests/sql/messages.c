#include "messages.h"

#include <string.h>

void put_32(uint8_t *at, uint32_t value) {
    for (int i = 0; i < 4; i++)
        at[i] = (uint8_t)(value >> (24 - 8 * i));
}

uint32_t get_32(const uint8_t *at) { return (uint32_t)at[0] << 24 | (uint32_t)at[1] << 16 | (uint32_t)at[2] << 8 | at[3]; }

uint32_t length_at(const uint8_t *at, uint32_t least, uint32_t most) {
    uint32_t length = get_32(at);
    return length < least || length > most ? NO_LENGTH : length;
}

uint32_t message_length(const uint8_t *bytes, uint32_t count, uint32_t type, uint32_t least, uint32_t most) {
    if (count < type + 4)
        return 0;
    uint32_t length = length_at(bytes + type, least, most);
    if (length == NO_LENGTH)
        return NO_LENGTH;
    return count - type < length ? 0 : type + length;
}

void add_16(struct text *text, uint32_t value) { add_bytes(text, (uint8_t[]){(uint8_t)(value >> 8), (uint8_t)value}, 2); }

void add_32(struct text *text, uint32_t value) {
    uint8_t bytes[4];
    put_32(bytes, value);
    add_bytes(text, bytes, 4);
}

void add_64(struct text *text, uint64_t value) {
    add_32(text, (uint32_t)(value >> 32));
    add_32(text, (uint32_t)value);
}

void add_string(struct text *text, const char *value) { add_bytes(text, value, (uint32_t)strlen(value) + 1); }

uint32_t message_begin(struct text *out, char type) {
    uint32_t at = out->length;
    add_bytes(out, &type, 1);
    add_32(out, 0);
    return at;
}

void message_end(struct text *out, uint32_t at) {
    if (!out->is_full)
        put_32((uint8_t *)out->bytes + at + 1, out->length - at - 1);
}

void say_empty(struct text *out, char type) { message_end(out, message_begin(out, type)); }

void say_parameter(struct text *out, const char *name, const char *value) {
    uint32_t at = message_begin(out, 'S');
    add_string(out, name);
    add_string(out, value);
    message_end(out, at);
}

void say_authentication(struct text *out, uint32_t kind, const void *bytes, uint32_t count) {
    uint32_t at = message_begin(out, 'R');
    add_32(out, kind);
    add_bytes(out, bytes, count);
    message_end(out, at);
}

void say_complete(struct text *out, const char *tag, int is_counted, int64_t count) {
    uint32_t spare = out->spare;
    out->spare = 0;
    uint32_t at = message_begin(out, 'C');
    add(out, tag);
    if (is_counted) {
        add(out, " ");
        add_number(out, count);
    }
    add_bytes(out, "", 1);
    message_end(out, at);
    out->spare = spare;
}

static void say_report(struct text *out, char type, const char *severity, const char *code, const char *why) {
    uint32_t spare = out->spare;
    out->spare = 0;
    uint32_t at = message_begin(out, type);
    add(out, "S");
    add_string(out, severity);
    add(out, "V");
    add_string(out, severity);
    add(out, "C");
    add_string(out, code);
    add(out, "M");
    add_string(out, why);
    add_bytes(out, "", 1);
    message_end(out, at);
    out->spare = spare;
}

void say_error(struct text *out, const char *severity, const char *code, const char *why) { say_report(out, 'E', severity, code, why); }

void say_warning(struct text *out, const char *code, const char *why) { say_report(out, 'N', "WARNING", code, why); }

const uint8_t *read_bytes_of(struct reader *reader, uint32_t count) {
    if (reader->is_short || count > (uint32_t)(reader->end - reader->at)) {
        reader->is_short = 1;
        return NULL;
    }
    reader->at += count;
    return reader->at - count;
}

uint32_t read_16(struct reader *reader) {
    const uint8_t *at = read_bytes_of(reader, 2);
    return at == NULL ? 0 : (uint32_t)at[0] << 8 | at[1];
}

uint32_t read_32(struct reader *reader) {
    const uint8_t *at = read_bytes_of(reader, 4);
    return at == NULL ? 0 : get_32(at);
}

const char *read_string(struct reader *reader) {
    const uint8_t *begin = reader->at, *end = memchr(begin, '\0', (size_t)(reader->end - begin));
    if (reader->is_short || end == NULL) {
        reader->is_short = 1;
        return "";
    }
    reader->at = end + 1;
    return (const char *)begin;
}

const uint8_t *read_value(struct reader *reader, uint32_t *count) {
    const uint8_t *at = read_bytes_of(reader, 4);
    *count = 0;
    if (at == NULL || get_32(at) == UINT32_MAX)
        return NULL;
    uint32_t length = length_at(at, 0, (uint32_t)(reader->end - reader->at));
    if (length == NO_LENGTH) {
        reader->is_short = 1;
        return NULL;
    }
    *count = length;
    return read_bytes_of(reader, length);
}

int is_at_end(const struct reader *reader) { return !reader->is_short && reader->at == reader->end; }
