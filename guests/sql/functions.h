/* SQL functions of the guest's own, under the names of SQLite's whose one call can take as long as its values' lengths multiplied: LIKE,
   GLOB, instr, replace, and trim with a second value. They answer as SQLite's, and are looked at in their midst. And current_setting, as
   PostgreSQL has it. */
#ifndef FUNCTIONS_H
#define FUNCTIONS_H

struct session;

/* Makes them of a session's connection. Answers whether there was memory. */
int functions_make(struct session *session);

#endif
