/* PostgreSQL's catalog: relations that no file has, each a query over what SQLite tells of its own schema (catalog_queries.c), and the
   functions that queries of them call. A connection has them once it has asked for one. */
#ifndef CATALOG_H
#define CATALOG_H

struct session;

/* Makes them on a session's connection. Answers whether there was memory. */
int catalog_make(struct session *session);

/* Whether a word is the name of a relation or of a function. */
int is_of_catalog(const char *name);

/* Whether one of the relations' columns has this name and is true or false. */
int is_truth_of_catalog(const char *column);

#endif
