/* Patterns of LIKE and GLOB. */
#ifndef PATTERNS_H
#define PATTERNS_H

#include <stdint.h>

/* Looks whether to stop, after so many steps. */
struct patience {
    int (*is_over)(void *with);
    void *with;
    uint32_t steps; /* since it was looked last */
};

/* Whether to stop, after so many steps more. */
int is_out_of_patience(struct patience *patience, uint32_t steps);

/* The signs of a pattern: any characters, any one, and what stands before a character that is meant itself or, of GLOB, what begins a set
   of characters; 0: there is none. */
struct signs {
    uint32_t all, one, escape;
    int has_sets, has_capitals; /* whether a letter and its capital are two */
};

/* Reads a character, as SQLite does, and goes on behind it; 0 at the end. */
uint32_t next_character(const uint8_t **at);

/* Whether a text is of a pattern: 1 or 0; or -1: it was stopped. */
int is_of_pattern(const uint8_t *pattern, const uint8_t *text, const struct signs *signs, struct patience *patience);

#endif
