#include "tokens.h"

#include <string.h>

#include "lexer.h"
#include "sqlite3.h"
#include "statement.h"

static int is_digit(char c) { return c >= '0' && c <= '9'; }

/* After a string or a quoted name that begins here: a quote within it is written twice. */
static const char *after_whole(const char *at) {
    const char *end = after_quoted(at);
    while (end != at && *at != '[' && *end == *at && end[-1] == *at)
        end = after_quoted(end);
    return end;
}

struct token first_token(const char *at) {
    struct token token = {SIGN, after_blanks(at), 1};
    const char *from = token.at, *end = after_whole(from);
    if (*from == '\0') {
        token = (struct token){END_OF_TEXT, from, 0};
    } else if (end != from) {
        token = (struct token){*from == '\'' ? VALUE : NAME, from, (uint32_t)(end - from)};
    } else if (is_letter(*from) || is_digit(*from) || *from == '$' || *from == '?') {
        for (end = from + 1; is_in_word(*end) || (*from == '$' && *end == ':'); end++)
            ;
        token.kind = is_letter(*from) ? WORD : is_digit(*from) ? VALUE : PARAMETER;
        token.length = (uint32_t)(end - from);
    } else if (strchr("<>=!|", *from) != NULL && from[1] != '\0' && strchr("<>=|", from[1]) != NULL) {
        token.length = 2;
    }
    return token;
}

struct token token_after(const struct token *token) { return first_token(token->at + token->length); }

int is(const struct token *token, const char *text) {
    return (token->kind == WORD || token->kind == SIGN) && token->length == strlen(text)
           && sqlite3_strnicmp(token->at, text, (int)token->length) == 0;
}

int is_one(const struct token *token, const char *const texts[]) {
    for (; *texts != NULL; texts++)
        if (is(token, *texts))
            return 1;
    return 0;
}

int is_name(const struct token *token) { return token->kind == WORD || token->kind == NAME; }

void copy_name(const struct token *token, char *name, uint32_t room) {
    int is_quoted = token->kind == NAME;
    uint32_t length = token->length - (is_quoted ? 2 : 0);
    length = length < room ? length : room - 1;
    memcpy(name, token->at + is_quoted, length);
    name[length] = '\0';
}
