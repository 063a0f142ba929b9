/* What comes of statements, as text and as JSON (RFC 8259). */
#ifndef TABLE_H
#define TABLE_H

#include "sqlite3.h"
#include "text.h"

/* A row as text: its columns with tabs between, and a newline. */
void add_row(struct text *text, sqlite3_stmt *prepared);

/* What comes of a statement as JSON: with columns {"columns": [..], "rows": [[..], ..]}, else {"changes": N}. `is_next`: others are before
   it. */
void add_json_row(struct text *text, sqlite3_stmt *prepared, int is_first, int is_next);
void add_json_end(struct text *text, sqlite3_stmt *prepared, int64_t rows, int64_t changes, int is_next);

/* A string of JSON. */
void add_json_string(struct text *text, const char *bytes, uint32_t count);

#endif
