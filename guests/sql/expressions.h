/* Regular expressions, as far as PostgreSQL's clients ask by them: . [..] ( | ) * + ? {m,n} ^ $, and \d \w \s. They take time by their
   length multiplied with the text's, whatever they are. */
#ifndef EXPRESSIONS_H
#define EXPRESSIONS_H

#include "patterns.h"

/* Whether an expression is found in a text: 1 or 0; -1: it was stopped; -2: it is none, or is too long. */
int is_found(const char *expression, const char *text, int has_capitals, struct patience *patience);

#endif
