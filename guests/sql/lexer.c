#include "lexer.h"

#include <string.h>

#include "sqlite3.h"
#include "statement.h"

int is_letter(char c) { return ((c | 32) >= 'a' && (c | 32) <= 'z') || c == '_' || (c & 0x80) != 0; }

int is_in_word(char c) { return is_letter(c) || (c >= '0' && c <= '9') || c == '$'; }

int takes(const char **from, const char *word) {
    const char *at = after_blanks(*from);
    size_t length = strlen(word);
    if (sqlite3_strnicmp(at, word, (int)length) != 0 || (is_letter(*word) && is_in_word(at[length])))
        return 0;
    *from = at + length;
    return 1;
}

int takes_name(const char **from, char name[MOST_NAME]) {
    const char *at = after_blanks(*from);
    uint32_t length = 0;
    int is_quoted = *at == '"';
    if (!is_quoted && !is_letter(*at))
        return 0;
    for (at += is_quoted; *at != '\0' && (is_quoted ? *at != '"' || at[1] == '"' : is_in_word(*at)); at++) {
        at += is_quoted && *at == '"';
        if (length == MOST_NAME - 1)
            return 0;
        name[length++] = !is_quoted && *at >= 'A' && *at <= 'Z' ? (char)(*at + 32) : *at;
    }
    name[length] = '\0';
    if (is_quoted && *at != '"')
        return 0;
    *from = at + is_quoted;
    return length > 0;
}

