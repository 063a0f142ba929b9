/* The functions of the C library that lwIP calls, and those that the compiler makes calls of. */
#include <stdint.h>
#include <stdlib.h>
#include <string.h>

/* Eight bytes, wherever the code may read or write them as one. */
typedef uint64_t __attribute__((may_alias)) word;

/* Copies whole words to an aligned place. The machine traps where an access isn't aligned, so the words of a source that isn't are put
   together from the two aligned ones that each lies in. */
static void copy_words(word *to, const unsigned char *from, size_t words) {
    unsigned shift = 8 * ((uintptr_t)from & 7);
    const word *source = (const word *)((uintptr_t)from & ~(uintptr_t)7);
    if (shift == 0) {
        while (words--)
            *to++ = *source++;
        return;
    }
    uint64_t low = *source++ >> shift;
    while (words--) {
        uint64_t next = *source++;
        *to++ = low | next << (64 - shift);
        low = next >> shift;
    }
}

void *memcpy(void *to, const void *from, size_t count) {
    unsigned char *target = to;
    const unsigned char *source = from;
    for (; count && ((uintptr_t)target & 7); count--)
        *target++ = *source++;
    copy_words((word *)target, source, count / 8);
    target += count & ~(size_t)7;
    source += count & ~(size_t)7;
    for (count &= 7; count; count--)
        *target++ = *source++;
    return to;
}

void *memmove(void *to, const void *from, size_t count) {
    unsigned char *target = to;
    const unsigned char *source = from;
    if ((uintptr_t)target - (uintptr_t)source >= count)
        return memcpy(to, from, count);
    while (count--)
        target[count] = source[count];
    return to;
}

void *memset(void *to, int value, size_t count) {
    unsigned char *target = to;
    for (; count; count--)
        *target++ = (unsigned char)value;
    return to;
}

int memcmp(const void *one, const void *other, size_t count) {
    const unsigned char *a = one, *b = other;
    for (; count; count--, a++, b++)
        if (*a != *b)
            return *a - *b;
    return 0;
}

size_t strlen(const char *text) {
    size_t length = 0;
    while (text[length])
        length++;
    return length;
}

int strncmp(const char *one, const char *other, size_t most) {
    const unsigned char *a = (const unsigned char *)one, *b = (const unsigned char *)other;
    for (; most; most--, a++, b++)
        if (*a != *b || *a == 0)
            return *a - *b;
    return 0;
}

int strcmp(const char *one, const char *other) { return strncmp(one, other, SIZE_MAX); }

char *strchr(const char *text, int wanted) {
    for (; *text != (char)wanted; text++)
        if (*text == 0)
            return NULL;
    return (char *)text;
}

char *strstr(const char *text, const char *wanted) {
    size_t length = strlen(wanted);
    for (; strncmp(text, wanted, length) != 0; text++)
        if (*text == 0)
            return NULL;
    return (char *)text;
}

int atoi(const char *text) {
    int value = 0;
    for (; *text >= '0' && *text <= '9'; text++)
        value = 10 * value + (*text - '0');
    return value;
}
