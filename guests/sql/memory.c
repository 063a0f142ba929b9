/* What the C library has for bytes, eight at a time: Debian's picolibc goes byte by byte, and the machine takes no access that isn't
   aligned. Where two places lie differently in their words what is read is put together from two of them. No word is read but one in
   which a wanted byte lies. */
#include <stddef.h>
#include <stdint.h>

#define WORD sizeof(word)
#define LOW 0x0101010101010101u
#define HIGH 0x8080808080808080u

typedef uint64_t __attribute__((may_alias)) word;

/* Or the compiler would see that these loops are calls of what they make. */
#define AS_IT_STANDS __attribute__((optimize("no-tree-loop-distribute-patterns")))

static inline uintptr_t in_word(const void *at) { return (uintptr_t)at % WORD; }

AS_IT_STANDS static uint8_t *copy_bytes(uint8_t *to, const uint8_t *from, size_t count) {
    while (count-- > 0)
        *to++ = *from++;
    return to;
}

/* Both begin at a word. */
AS_IT_STANDS static void copy_words(word *to, const word *from, size_t words) {
    for (; words >= 4; words -= 4, to += 4, from += 4) {
        word one = from[0], two = from[1], three = from[2], four = from[3];
        to[0] = one, to[1] = two, to[2] = three, to[3] = four;
    }
    while (words-- > 0)
        *to++ = *from++;
}

/* `to` begins at a word, and `from` doesn't. */
AS_IT_STANDS static void copy_between(word *to, const uint8_t *from, size_t words) {
    const word *at = (const word *)(from - in_word(from));
    unsigned first = 8 * (unsigned)in_word(from), second = 64 - first;
    word low = *at++;
    while (words-- > 0) {
        word high = *at++;
        *to++ = low >> first | high << second;
        low = high;
    }
}

/* From the front. What is written may lie before what is read, and over it. */
static void copy_forwards(uint8_t *to, const uint8_t *from, size_t count) {
    if (((uintptr_t)to | (uintptr_t)from) % WORD == 0) {
        size_t words = count / WORD;
        copy_words((word *)to, (const word *)from, words);
        to += words * WORD;
        from += words * WORD;
        count %= WORD;
    } else if (count >= 2 * WORD) {
        size_t front = (WORD - in_word(to)) % WORD, words = (count - front) / WORD;
        to = copy_bytes(to, from, front);
        from += front;
        if (in_word(from) == 0)
            copy_words((word *)to, (const word *)from, words);
        else
            copy_between((word *)to, from, words);
        to += words * WORD;
        from += words * WORD;
        count -= front + words * WORD;
    }
    copy_bytes(to, from, count);
}

void *memcpy(void *restrict to, const void *restrict from, size_t count) {
    copy_forwards(to, from, count);
    return to;
}

/* From the end, where what is written begins within what is read. */
AS_IT_STANDS static void copy_backwards(uint8_t *to, const uint8_t *from, size_t count) {
    if (in_word(to) == in_word(from)) {
        for (; count > 0 && in_word(to + count) != 0; count--)
            to[count - 1] = from[count - 1];
        for (; count >= WORD; count -= WORD)
            *(word *)(to + count - WORD) = *(const word *)(from + count - WORD);
    }
    for (; count > 0; count--)
        to[count - 1] = from[count - 1];
}

void *memmove(void *to, const void *from, size_t count) {
    if ((uintptr_t)to - (uintptr_t)from >= count)
        copy_forwards(to, from, count);
    else
        copy_backwards(to, from, count);
    return to;
}

AS_IT_STANDS void *memset(void *at, int value, size_t count) {
    uint8_t *into = at;
    word filled = LOW * (uint8_t)value;
    for (; count > 0 && in_word(into) != 0; count--)
        *into++ = (uint8_t)value;
    for (; count >= 4 * WORD; count -= 4 * WORD, into += 4 * WORD) {
        word *words = (word *)into;
        words[0] = words[1] = words[2] = words[3] = filled;
    }
    for (; count >= WORD; count -= WORD, into += WORD)
        *(word *)into = filled;
    while (count-- > 0)
        *into++ = (uint8_t)value;
    return at;
}

AS_IT_STANDS int memcmp(const void *one, const void *other, size_t count) {
    const uint8_t *first = one, *second = other;
    if (in_word(first) == in_word(second)) {
        for (; count > 0 && in_word(first) != 0 && *first == *second; count--)
            first++, second++;
        for (; count >= WORD && in_word(first) == 0 && *(const word *)first == *(const word *)second; count -= WORD)
            first += WORD, second += WORD;
    }
    for (; count > 0 && *first == *second; count--)
        first++, second++;
    return count == 0 ? 0 : *first - *second;
}

/* Whether a word has a zero in it. */
static inline word has_zero(word bytes) { return (bytes - LOW) & ~bytes & HIGH; }

AS_IT_STANDS size_t strlen(const char *text) {
    const char *at = text;
    for (; in_word(at) != 0; at++)
        if (*at == '\0')
            return (size_t)(at - text);
    while (!has_zero(*(const word *)at))
        at += WORD;
    while (*at != '\0')
        at++;
    return (size_t)(at - text);
}

AS_IT_STANDS void *memchr(const void *from, int value, size_t count) {
    const uint8_t *at = from;
    word sought = LOW * (uint8_t)value;
    for (; count > 0 && in_word(at) != 0; count--, at++)
        if (*at == (uint8_t)value)
            return (void *)(uintptr_t)at;
    for (; count >= WORD && !has_zero(*(const word *)at ^ sought); count -= WORD)
        at += WORD;
    for (; count > 0; count--, at++)
        if (*at == (uint8_t)value)
            return (void *)(uintptr_t)at;
    return NULL;
}
