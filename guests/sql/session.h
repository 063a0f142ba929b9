/* A client's connection, whichever protocol it speaks and whatever carries its bytes. What a session does it does in turns: while one
   works, or waits, bytes are sent and received for all, and the others work in between. */
#ifndef SESSION_H
#define SESSION_H

#include <stdint.h>

#include "settings.h"
#include "sqlite3.h"
#include "text.h"
#include "turns.h"

/* The most bytes of a question, and of an answer with all its rows. */
#define MOST_ASKED (256 * 1024)
#define MOST_ANSWER (1024 * 1024)

/* The most bytes of a value, and of a row: one call of a function of SQLite's takes as long as its value is. */
#define MOST_VALUE_BYTES MOST_ASKED

/* No question is taken while so many bytes of answers aren't sent. */
#define MOST_UNSENT (16 * 1024)

/* A stranger's connection, on which nobody has proved yet that he may ask, is ended so many milliseconds after it began. */
#define MOST_STRANGE 60000

struct session;
struct failure;

/* A protocol. */
struct service {
    uint16_t port;
    uint32_t size;                          /* of its sessions, of which a `struct session` is the first part */
    uint32_t most_quiet;                    /* after so many milliseconds without a byte it is ended; 0: never */
    /* Goes on where it waited, and takes in what has come whole, unless it waits or the answers have no room. */
    void (*go_on)(struct session *);
    void (*end_of_input)(struct session *); /* the client says no more */
    /* What it waits for doesn't come: the statement fails. Where it doesn't wait the session is ended. */
    void (*give_up)(struct session *, const struct failure *, int was_waiting);
    void (*drop)(struct session *);         /* gives up what the protocol holds */
};

/* Why what a session does is to stop (work.c has the words). */
enum stop { NOT_STOPPED, CANCELLED, TOOK_TOO_LONG, WAITED_TOO_LONG, WAS_IDLE };

struct session {
    const struct service *service;
    struct session *next;
    void *connection;  /* the carrier's */
    uint32_t number;   /* never that of another session that is there */
    sqlite3 *database; /* its own connection to the database, once it has one */
    struct text in, out;
    struct text later; /* bytes that came while it works */
    uint32_t sent;     /* bytes of `out` that the carrier has */
    uint32_t settled;  /* bytes of `out` that stay said, whatever comes of its work */
    uint32_t owed;     /* bytes that came, and for which the carrier hasn't said that more may come */
    uint64_t began;    /* when the connection did */
    uint64_t heard;    /* when the last byte came */
    int is_known;      /* it is no stranger's */
    int is_ending;     /* it ends when all of `out` is sent */
    int is_silent;     /* the client has gone: nobody reads what is said */
    int is_gone;       /* so has the carrier's connection */
    int is_released;   /* nothing is left of it but this */
    /* Its turns. */
    struct turn turn;
    int is_due;        /* it is to have one */
    int is_waiting;    /* for a lock, or at the door */
    int is_held;       /* questions are left until what was answered is sent */
    int is_sending;    /* within its work, until little of what it said is left to send */
    uint64_t round;    /* in which it had its last one */
    uint64_t ticket;   /* whose turn it is in a round: the lowest one's; 0: it wants none */
    uint64_t waits_since; /* for a lock, in milliseconds; 0: it doesn't */
    uint64_t rests_since; /* after its last turn */
    /* What the client asked last, and how long it may take. */
    int is_asked;
    uint64_t deadline;
    enum stop stop;
    struct settings settings;
    int is_told;       /* the connection knows what it may do */
    int has_catalog;   /* and has PostgreSQL's catalog */
    int wants_room;    /* the log was full: it is to begin anew before this writes again */
    int had_room;      /* it has, for what was asked last */
    /* Its transaction. */
    int is_implicit;   /* it was begun for several statements, and ends with them */
    int is_failed;     /* a statement in it failed: only its end is taken */
    int has_savepoint;
    int was_block;     /* before the statement that runs */
    struct text spelled; /* what SQLite is told in its place */
};

/* A session of a service, or NULL where there is no memory. */
struct session *session_start(const struct service *service, void *connection);

/* Gives it its connection to the database. Answers whether there was memory. */
int session_open(struct session *session);

/* Takes in bytes. Where there is no memory for them it ends. */
void session_take(struct session *session, const void *bytes, uint32_t count);

/* Whether its answers have room for another one, before which no question is taken; where they haven't it is held. */
int session_has_room(struct session *session);

/* Whether it works, waits, or is to have a turn. */
int session_is_busy(const struct session *session);

/* How many bytes of `out` may be sent: none that may yet be taken back. */
uint32_t session_sendable(const struct session *session);

/* They are sent, or some of them. One that was held goes on where all are. Answers whether the session is over. */
int session_is_sent(struct session *session);

/* What was said so far stays said. */
void session_settle(struct session *session);

/* The client is gone: what it asked and isn't done is done, but what takes long is stopped. */
void session_fall_silent(struct session *session);

/* Ends it at once. SQLite rolls back what it left open. */
void session_drop(struct session *session);

/* A question begins, unless it is the one at hand, and has been answered. */
void session_begin(struct session *session);
void session_rest(struct session *session);

/* Stops what it does, or waits for; one that does nothing where it WAS_IDLE. */
void session_stop(struct session *session, enum stop why);

/* Within what it does, where that takes long: lets others have their turns. Answers whether it is to stop. */
int session_is_stopped(struct session *session);

/* Within what it does: what was said is sent, and stays said. It goes on once little of that is left, in turns with all else. Answers 0
   where it is to stop. */
int session_stream(struct session *session);

/* What it waited for at the door is there. */
void session_wake(struct session *session);

/* It waits for a lock, after those that wait already; a second time it keeps its place. */
void session_wait(struct session *session);

/* The session of a number, or NULL. */
struct session *session_of(uint32_t number);

/* Gives turns to those that want one, for some milliseconds; to those that wait, in their order, where a lock has been given back since the
   last time. Stops those whose time is over. Answers whether one wants a turn still. */
int sessions_poll(void);

/* Whether it has been silent, or a stranger's, for too long. */
int is_too_quiet(const struct session *session);

/* The carrier's: sends what the session has said, and ends it where it is to end. The session may be gone then. */
void carry(struct session *session);

#endif
