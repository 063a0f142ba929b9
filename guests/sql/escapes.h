/* PostgreSQL's strings with escapes: E'..'. */
#ifndef ESCAPES_H
#define ESCAPES_H

#include "text.h"

/* Adds the string that begins here, after the E, as one without escapes. Answers what is after it. */
const char *add_escaped(struct text *to, const char *at);

/* After such a string. */
const char *after_escaped(const char *at);

#endif
