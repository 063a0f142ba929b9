/* A statement's text as tokens: words, quoted names, parameters, values and signs. */
#ifndef TOKENS_H
#define TOKENS_H

#include <stdint.h>

enum token_kind { END_OF_TEXT, WORD, NAME, PARAMETER, VALUE, SIGN };

struct token {
    enum token_kind kind;
    const char *at;
    uint32_t length;
};

/* The first token after blanks and comments, and the one after another. */
struct token first_token(const char *at);
struct token token_after(const struct token *token);

/* Whether it is this word or sign, or one of these, whatever its letters. */
int is(const struct token *token, const char *text);
int is_one(const struct token *token, const char *const texts[]);

/* Whether it is a name, as a word or quoted; and its letters without quotes, as many as there is room for. */
int is_name(const struct token *token);
void copy_name(const struct token *token, char *name, uint32_t room);

#endif
