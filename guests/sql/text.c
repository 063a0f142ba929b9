#include "text.h"

#include <stddef.h>
#include <string.h>

#include "sqlite3.h"
#include "turns.h"

/* An empty text keeps no more room than this. */
#define KEPT (16 * 1024)

/* The network sends texts that work adds to: nobody comes between old memory and new. */
static int resize(struct text *text, uint32_t room) {
    turn_hold();
    char *bytes = sqlite3_realloc64(text->bytes, room);
    if (bytes != NULL) {
        text->bytes = bytes;
        text->room = room;
    }
    turn_release();
    return bytes != NULL;
}

int text_start(struct text *text, uint32_t most) {
    *text = (struct text){.most = most, .spare = SPARE};
    return resize(text, 2 * SPARE);
}

static int make_room(struct text *text, uint32_t count) {
    if (!text->is_full && count > text->most - text->length)
        text->is_full = TOO_LONG;
    if (text->is_full)
        return 0;
    uint32_t wanted = text->length + count + text->spare, room = text->room == 0 ? 2 * SPARE : text->room;
    if (wanted <= text->room)
        return 1;
    while (room < wanted)
        room *= 2;
    if (!resize(text, room))
        text->is_full = NO_MEMORY;
    return !text->is_full;
}

void add_bytes(struct text *text, const void *bytes, uint32_t count) {
    if (count == 0 || !make_room(text, count))
        return;
    memcpy(text->bytes + text->length, bytes, count);
    text->length += count;
}

void add(struct text *text, const char *more) { add_bytes(text, more, (uint32_t)strlen(more)); }

void add_number(struct text *text, int64_t number) {
    char digits[24], *at = digits + sizeof digits;
    uint64_t left = number < 0 ? -(uint64_t)number : (uint64_t)number;
    do
        *--at = (char)('0' + left % 10);
    while ((left /= 10) > 0);
    if (number < 0)
        *--at = '-';
    add_bytes(text, at, (uint32_t)(digits + sizeof digits - at));
}

uint32_t character(const char *bytes, uint32_t count) {
    const uint8_t *at = (const uint8_t *)bytes;
    uint32_t length = at[0] < 0x80 ? 1 : at[0] < 0xc2 ? 0 : at[0] < 0xe0 ? 2 : at[0] < 0xf0 ? 3 : at[0] < 0xf5 ? 4 : 0;
    if (length > count)
        return 0;
    for (uint32_t i = 1; i < length; i++)
        if ((at[i] & 0xc0) != 0x80)
            return 0;
    /* The second byte's bounds keep out what is longer than it need be, the halves of UTF-16, and what is beyond the last character. */
    int is_beyond = (at[0] == 0xe0 && at[1] < 0xa0) || (at[0] == 0xed && at[1] > 0x9f) || (at[0] == 0xf0 && at[1] < 0x90)
                    || (at[0] == 0xf4 && at[1] > 0x8f);
    return is_beyond ? 0 : length;
}

typedef uint64_t __attribute__((may_alias)) word;

/* Passes over characters of one byte, eight at a time. */
static const char *after_ascii(const char *at, const char *end) {
    const word low = 0x0101010101010101u, high = 0x8080808080808080u;
    for (; (uintptr_t)at % sizeof low != 0 && at < end && *at > 0; at++)
        ;
    if ((uintptr_t)at % sizeof low != 0)
        return at;
    for (; end - at >= (ptrdiff_t)sizeof low; at += sizeof low) {
        word bytes = *(const word *)at;
        if (((bytes | (bytes - low)) & high) != 0)
            break;
    }
    return at;
}

int is_utf8(const char *bytes, uint32_t count) {
    const char *end = bytes + count;
    bytes = after_ascii(bytes, end);
    count = (uint32_t)(end - bytes);
    for (uint32_t length; count > 0; bytes += length, count -= length)
        if (bytes[0] == '\0' || (length = character(bytes, count)) == 0)
            return 0;
    return 1;
}

void text_cut(struct text *text, uint32_t length) {
    text->length = length;
    text->is_full = 0;
}

void text_shift(struct text *text, uint32_t count) {
    if (count == 0)
        return;
    memmove(text->bytes, text->bytes + count, text->length - count);
    text->length -= count;
}

/* By new memory: SQLite's own allocator gives nothing back where a block becomes smaller. */
void text_shrink(struct text *text) {
    char *bytes = text->length == 0 && text->room > KEPT ? sqlite3_malloc64(2 * SPARE) : NULL;
    if (bytes == NULL)
        return;
    sqlite3_free(text->bytes);
    text->bytes = bytes;
    text->room = 2 * SPARE;
}

void text_drop(struct text *text) {
    sqlite3_free(text->bytes);
    memset(text, 0, sizeof *text);
}
