/* A text that grows, in SQLite's memory. */
#ifndef TEXT_H
#define TEXT_H

#include <stdint.h>

/* So much room is kept for what must be said where there is no more memory: an error, and that the next question may come. */
#define SPARE 1024

struct text {
    char *bytes;
    uint32_t length, room;
    uint32_t most;   /* so long it may become */
    uint32_t spare;  /* so much of the room is kept free: SPARE or 0 */
    int is_full;     /* there was no room for all of it: NO_MEMORY or TOO_LONG */
};

enum { NO_MEMORY = 1, TOO_LONG };

/* An empty text that may become so long. Answers whether there was memory for its spare room. */
int text_start(struct text *text, uint32_t most);

/* Adds bytes, a string, or a number in decimal digits, or makes the text full: then nothing is added any more until it is cut. */
void add_bytes(struct text *text, const void *bytes, uint32_t count);
void add(struct text *text, const char *more);
void add_number(struct text *text, int64_t number);

/* How many bytes the character has that begins here, in UTF-8 (RFC 3629); 0 where none does. */
uint32_t character(const char *bytes, uint32_t count);

/* Whether bytes are UTF-8, and none of them is zero: as in PostgreSQL, text has none. */
int is_utf8(const char *bytes, uint32_t count);
#define NOT_UTF8 "text must be UTF-8, without a zero"

/* Takes the text back to a length that it had. */
void text_cut(struct text *text, uint32_t length);

/* Takes bytes off its front. */
void text_shift(struct text *text, uint32_t count);

/* Gives most of the memory of an empty text back. */
void text_shrink(struct text *text);

void text_drop(struct text *text);

#endif
