/* The words of a statement, one after another. */
#ifndef LEXER_H
#define LEXER_H

#define MOST_NAME 64

/* Whether a word may begin with a character, and have it. */
int is_letter(char c);
int is_in_word(char c);

/* Steps over blanks and a word, whatever its letters, or a sign. Answers whether it was there. */
int takes(const char **from, const char *word);

/* The same of a name: in small letters, or as it stands between quotes. One of 64 bytes or more is none. */
int takes_name(const char **from, char name[MOST_NAME]);

#endif
