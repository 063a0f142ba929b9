#include "escapes.h"

#include <string.h>

/* The number that begins here, of so many digits at most. Answers how many there are. */
static uint32_t read_digits(const char *at, uint32_t base, uint32_t most, uint32_t *value) {
    uint32_t count = 0;
    for (*value = 0; count < most; count++) {
        uint32_t c = (uint8_t)at[count], letter = c | 32;
        uint32_t digit = c >= '0' && c <= '9' ? c - '0' : letter >= 'a' && letter <= 'f' ? letter - 'a' + 10 : 16;
        if (digit >= base)
            break;
        *value = base * *value + digit;
    }
    return count;
}

static void add_byte(struct text *to, uint32_t byte) {
    add_bytes(to, (char[]){(char)byte, '\''}, byte == '\'' ? 2 : 1);
}

static void add_as_utf8(struct text *to, uint32_t c) {
    static const uint8_t firsts[] = {0, 0xc0, 0xe0, 0xf0};
    uint32_t more = c < 0x80 ? 0 : c < 0x800 ? 1 : c < 0x10000 ? 2 : 3;
    add_byte(to, firsts[more] | c >> 6 * more);
    while (more-- > 0)
        add_byte(to, 0x80 | (c >> 6 * more & 0x3f));
}

/* Adds what an escape stands for. Answers what is after it. */
static const char *add_escape(struct text *to, const char *at) {
    static const char names[] = "bfnrt", values[] = "\b\f\n\r\t";
    const char *name = strchr(names, at[1]);
    int is_octal = at[1] >= '0' && at[1] <= '7';
    uint32_t value, most = is_octal ? 3 : at[1] == 'x' ? 2 : at[1] == 'u' ? 4 : at[1] == 'U' ? 8 : 0;
    uint32_t first = is_octal ? 1 : 2, count = read_digits(at + first, is_octal ? 8 : 16, most, &value);
    if (count == 0)
        add_byte(to, name == NULL ? (uint8_t)at[1] : (uint8_t)values[name - names]);
    else if (at[1] == 'u' || at[1] == 'U')
        add_as_utf8(to, value);
    else
        add_byte(to, value);
    return at + (count == 0 ? 2 : first + count);
}

const char *add_escaped(struct text *to, const char *at) {
    add(to, "'");
    for (at++; *at != '\0' && (*at != '\'' || at[1] == '\'');) {
        if (*at == '\\' && at[1] != '\0') {
            at = add_escape(to, at);
        } else {
            add_byte(to, (uint8_t)*at);
            at += *at == '\'' ? 2 : 1;
        }
    }
    add(to, "'");
    return *at == '\0' ? at : at + 1;
}

const char *after_escaped(const char *at) {
    for (at++; *at != '\0' && (*at != '\'' || at[1] == '\'');)
        at += (*at == '\\' || *at == '\'') && at[1] != '\0' ? 2 : 1;
    return *at == '\0' ? at : at + 1;
}
