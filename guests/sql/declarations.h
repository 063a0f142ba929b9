/* What can be read of the SQL that made a table, an index or a view, as functions of SQL, and a few more that the catalog's queries and
   PostgreSQL's dialect call. */
#ifndef DECLARATIONS_H
#define DECLARATIONS_H

struct session;

/* Makes them on a session's connection. Answers whether there was memory. */
int declarations_make(struct session *session);

#endif
