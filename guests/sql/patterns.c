#include "patterns.h"

#include <stddef.h>

/* So many steps are no more than some milliseconds. */
#define STEPS 4096

int is_out_of_patience(struct patience *patience, uint32_t steps) {
    patience->steps += steps;
    if (patience->steps < STEPS)
        return 0;
    patience->steps = 0;
    return patience->is_over(patience->with);
}

static int is_within(uint8_t byte) { return (byte & 0xc0) == 0x80; }

/* What is none of Unicode is U+FFFD. */
static uint32_t read_long(const uint8_t **at, uint32_t first) {
    uint32_t c = first < 0xe0 ? first & 0x1f : first < 0xf0 ? first & 0x0f : first < 0xf8 ? first & 7 : first < 0xfc ? first & 3
                 : first < 0xfe ? first & 1 : 0;
    while (is_within(**at))
        c = (c << 6) + (*(*at)++ & 0x3f);
    return c < 0x80 || (c & 0xfffff800) == 0xd800 || (c & 0xfffffffe) == 0xfffe ? 0xfffd : c;
}

uint32_t next_character(const uint8_t **at) {
    if (**at == 0)
        return 0;
    uint32_t first = *(*at)++;
    return first < 0xc0 ? first : read_long(at, first);
}

static uint32_t small(uint32_t c) { return c >= 'A' && c <= 'Z' ? c | 32 : c; }

/* Whether a character is of the set that begins here; goes on behind it. A set without an end has none. */
static int is_of_set(const uint8_t **pattern, uint32_t c) {
    uint32_t prior = 0, member = next_character(pattern);
    int is_seen = 0, is_inverted = member == '^';
    if (is_inverted)
        member = next_character(pattern);
    if (member == ']') {
        is_seen = c == ']';
        member = next_character(pattern);
    }
    for (; member != 0 && member != ']'; member = next_character(pattern)) {
        if (member == '-' && **pattern != ']' && **pattern != 0 && prior > 0) {
            member = next_character(pattern);
            is_seen |= c >= prior && c <= member;
            prior = 0;
        } else {
            is_seen |= c == member;
            prior = member;
        }
    }
    return member != 0 && is_seen != is_inverted;
}

/* Whether a character is of the sign that begins here with `sign`; goes on behind it. */
static int is_of_sign(const uint8_t **pattern, uint32_t sign, uint32_t c, const struct signs *signs) {
    int is_meant = 0;
    if (sign == signs->escape && sign != 0) {
        if (signs->has_sets)
            return is_of_set(pattern, c);
        sign = next_character(pattern);
        is_meant = 1;
    }
    if (sign == c)
        return sign != 0;
    if (!signs->has_capitals && sign < 0x80 && c < 0x80 && small(sign) == small(c))
        return sign != 0;
    return sign == signs->one && sign != 0 && !is_meant;
}

/* Where the text isn't of what follows the last sign for any characters, that one takes a character more. Those before it needn't: what
   they took is enough. */
int is_of_pattern(const uint8_t *pattern, const uint8_t *text, const struct signs *signs, struct patience *patience) {
    const uint8_t *after_all = NULL, *from = NULL;
    for (;;) {
        if (is_out_of_patience(patience, 1))
            return -1;
        uint32_t sign = next_character(&pattern);
        if (sign != 0 && sign == signs->all) {
            after_all = pattern;
            from = text;
            if (*pattern == 0)
                return 1;
            continue;
        }
        if (sign == 0 && *text == 0)
            return 1;
        if (*text == 0)
            return 0;
        uint32_t c = sign == 0 ? 0 : next_character(&text);
        if (sign != 0 && is_of_sign(&pattern, sign, c, signs))
            continue;
        if (after_all == NULL)
            return 0;
        next_character(&from);
        text = from;
        pattern = after_all;
    }
}
