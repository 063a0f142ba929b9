/* Statements that SQLite can't compile, as PostgreSQL has them: translated (translate.h), and with its catalog (catalog.h). */
#ifndef POSTGRES_SQL_H
#define POSTGRES_SQL_H

#include "session.h"
#include "statement.h"
#include "work.h"

/* Whether SQLite would compile what it is told for a statement, and mean something else. */
int is_for_postgres(const struct statement *statement, const char *sql);

/* Compiles a statement so, up to its end or, where that is NULL, its semicolon, and answers as SQLite does; `after` is what comes after it.
   `failure` has a code where it can't be translated. Where nothing of it is PostgreSQL's what SQLite has said of it stays. */
int prepare_as_postgres(struct session *session, const char *sql, const char *end, sqlite3_stmt **prepared, const char **after,
                        struct failure *failure);

#endif
