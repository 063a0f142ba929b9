/* PostgreSQL's SQL as SQLite's, token by token: a statement that SQLite can't compile is read so, and compiled again. What is written
   otherwise: strings with escapes (E'..'), casts (x::type), operators for patterns, = ANY(..) and <> ALL(..), arrays, their elements and
   the functions that make rows of them, ORDER BY within a call, the schemas public, pg_catalog and information_schema, and words that
   SQLite keeps for itself after AS. A SERIAL column is SQLite's INTEGER PRIMARY KEY, which numbers its rows, and must be one. */
#ifndef TRANSLATE_H
#define TRANSLATE_H

#include <stdint.h>

#include "text.h"

/* What came of a translation. */
struct translation {
    int is_other;      /* the text isn't as before */
    const char *after; /* what comes after the statement */
    struct text sets;  /* the tables that it names, of functions that make rows (sets.h), with a zero behind each; who asked drops it */
    const char *code;  /* why there is none: SQLSTATE and words; NULL: there is one */
    const char *why;
};

/* Whether a statement that makes a table has a SERIAL column, which SQLite would take for one without numbers. */
int has_serial(const char *sql);

/* Writes a statement as SQLite has it, with a zero behind it. It ends at a place, or, where that is NULL, with its semicolon. */
void translate(const char *begin, const char *end, struct text *to, struct translation *translation);

#endif
