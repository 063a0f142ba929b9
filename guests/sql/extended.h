/* The extended queries of PostgreSQL's protocol: statements that are prepared, and portals, which are statements with their values. A
   portal runs to its end when it is first executed, or, where it only reads, when it is first described, so that its columns have types. */
#ifndef EXTENDED_H
#define EXTENDED_H

#include "messages.h"
#include "session.h"
#include "work.h"

struct prepared;
struct portal;

struct extended {
    struct prepared *statements;
    struct portal *portals;
    struct portal *running;
    int is_alone; /* the message that is taken belongs to the one statement that is executed until the client's next Sync */
};

/* Take one message each, after its head. WAITS: the message is to be taken again when a lock has been given back. FAILED: the client is to
   be told why, and is skipped to its next Sync. */
enum outcome take_parse(struct session *session, struct extended *extended, struct reader *reader, struct failure *failure);
enum outcome take_bind(struct session *session, struct extended *extended, struct reader *reader, struct failure *failure);
enum outcome take_describe(struct session *session, struct extended *extended, struct reader *reader, struct failure *failure);
enum outcome take_execute(struct session *session, struct extended *extended, struct reader *reader, struct failure *failure);
enum outcome take_close(struct session *session, struct extended *extended, struct reader *reader, struct failure *failure);

/* The protocol's: what a session has of this. */
struct extended *extended_of(struct session *session);

/* Forgets portals, the statement and the portal without a name, or all prepared statements and portals. */
void forget_portals(struct extended *extended);
void forget_unnamed(struct extended *extended);
void forget_all(struct extended *extended);

/* Forgets what a statement has ended that was run: portals, by the end of their transaction, and what it names. */
void forget_after(struct session *session, struct extended *extended, const struct statement *statement);

#endif
