/* PostgreSQL's types by their names, and what stands here for a cast to one. */
#ifndef CASTS_H
#define CASTS_H

#include "tokens.h"

#define MOST_TYPE 64

/* What is written before and behind a value that is cast. */
struct cast {
    const char *types; /* their names, each between blanks */
    const char *before, *behind;
};

/* Reads a type that begins with a token: its name in small letters, without schema, lengths and brackets. Answers its last token. */
struct token last_of_type(struct token token, char type[MOST_TYPE]);

/* NULL: there is no such type here. */
const struct cast *cast_to(const char *type);

#endif
