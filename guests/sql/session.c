#include "session.h"

#include <string.h>

#include "clock.h"
#include "database.h"
#include "functions.h"
#include "locks.h"
#include "work.h"

/* SQLite looks after so many of its operations whether the turn is over, and whether the statement is to stop. */
#define OPERATIONS 500

/* So much may have come of the questions after one. */
#define MOST_AHEAD (128 * 1024)

/* Sessions have their turns for so many milliseconds before the network has its own, and are looked at every so many. */
#define ROUND 2
#define LOOKS 16

/* A session that says more than there is room for goes on when no more than this is left to send. */
#define LITTLE_UNSENT (8 * 1024)

static struct session *sessions;
static uint64_t tickets, round = 1;

static int is_late(const struct session *session) { return session->is_asked && clock_now() > session->deadline; }

int session_is_stopped(struct session *session) {
    turn_look();
    if (session->stop == NOT_STOPPED && is_late(session))
        session->stop = TOOK_TOO_LONG;
    return session->stop != NOT_STOPPED;
}

static int is_stopped(void *session) { return session_is_stopped(session); }

struct session *session_start(const struct service *service, void *connection) {
    static uint32_t number;
    struct session *session = sqlite3_malloc64(service->size);
    if (session == NULL)
        return NULL;
    memset(session, 0, service->size);
    if (!text_start(&session->in, MOST_ASKED + MOST_AHEAD) || !text_start(&session->out, MOST_UNSENT + MOST_ANSWER + SPARE)) {
        text_drop(&session->in);
        sqlite3_free(session);
        return NULL;
    }
    session->later.most = MOST_ASKED + MOST_AHEAD;
    session->spelled.most = 2 * MOST_ASKED;
    session->service = service;
    session->connection = connection;
    session->number = ++number;
    session->began = session->heard = session->rests_since = clock_now();
    settings_start(&session->settings);
    session->next = sessions;
    sessions = session;
    return session;
}

int session_open(struct session *session) {
    if (session->database != NULL)
        return 1;
    if (database_open(&session->database) != SQLITE_OK || !functions_make(session)) {
        sqlite3_close(session->database);
        session->database = NULL;
        return 0;
    }
    sqlite3_limit(session->database, SQLITE_LIMIT_LENGTH, MOST_VALUE_BYTES);
    sqlite3_progress_handler(session->database, OPERATIONS, is_stopped, session);
    return 1;
}

/* Turns. */

static void want_turn(struct session *session) {
    session->is_due = 1;
    if (session->ticket == 0)
        session->ticket = ++tickets;
}

int session_is_busy(const struct session *session) { return session->is_due || session->is_waiting || session->turn.is_begun; }

static void release(struct session *session) {
    session->service->drop(session);
    sqlite3_close(session->database);
    session->is_released = 1;
}

static void work(void *with) {
    struct session *session = with;
    int was_waiting = session->is_waiting;
    session->is_waiting = session->is_due = 0;
    if (session->is_gone) {
        release(session);
        return;
    }
    if (!was_waiting)
        session_settle(session);
    if (session->stop != NOT_STOPPED) {
        struct failure failure;
        stop_failure(session, &failure);
        session->stop = NOT_STOPPED;
        session->service->give_up(session, &failure, was_waiting);
    }
    session->service->go_on(session);
}

static void forget(struct session *session) {
    struct session **place = &sessions;
    while (*place != session)
        place = &(*place)->next;
    *place = session->next;
    text_drop(&session->in);
    text_drop(&session->out);
    text_drop(&session->later);
    text_drop(&session->spelled);
    sqlite3_free(session);
}

/* What came meanwhile is to be taken in. */
static void take_later(struct session *session) {
    if (session->later.length == 0)
        return;
    add_bytes(&session->in, session->later.bytes, session->later.length);
    text_cut(&session->later, 0);
    text_shrink(&session->later);
    if (session->in.is_full)
        session->is_ending = 1;
    else if (!session->is_waiting && !session->is_held)
        want_turn(session);
}

/* A session's work is over, or waits. */
static void comes_to_rest(struct session *session) {
    if (session->is_released) {
        forget(session);
        return;
    }
    session->rests_since = clock_now();
    if (!session->is_waiting) {
        session->ticket = session->waits_since = 0;
        session->stop = NOT_STOPPED;
    } else if (session->stop != NOT_STOPPED) {
        want_turn(session);
    }
    take_later(session);
    text_shrink(&session->in);
    if (!session->is_waiting) {
        text_cut(&session->spelled, 0);
        text_shrink(&session->spelled);
    }
    if (session->is_gone)
        want_turn(session);
    else if (session->is_silent)
        session_fall_silent(session);
    if (!session->is_gone)
        carry(session);
}

static void goes_on_later(struct session *session) {
    session->is_due = !session->is_sending;
    if (!session->is_gone)
        carry(session);
}

/* Of those that are to have a turn in this round, the first. */
static struct session *next_due(void) {
    struct session *first = NULL;
    for (struct session *session = sessions; session != NULL; session = session->next)
        if (session->is_due && session->round < round && (first == NULL || session->ticket < first->ticket))
            first = session;
    return first;
}

static int is_one_due(void) {
    for (const struct session *session = sessions; session != NULL; session = session->next)
        if (session->is_due)
            return 1;
    return 0;
}

/* Gives the next one its turn; nobody has two in a round. One for which there is no memory beside those that have begun has it later. */
static void give_turn(void) {
    struct session *session = next_due();
    if (session == NULL) {
        round++;
        return;
    }
    session->round = round;
    session->turn.act = work;
    session->turn.with = session;
    if (!turn_give(&session->turn))
        return;
    if (session->turn.is_begun)
        goes_on_later(session);
    else
        comes_to_rest(session);
}

/* Those that wait for a lock try again where one was given back, also where they have tried in this round: they have their order. */
static void wake(void) {
    static uint32_t seen;
    if (seen == lock_lowered())
        return;
    seen = lock_lowered();
    for (struct session *session = sessions; session != NULL; session = session->next)
        if (session->is_waiting && session->waits_since != 0) {
            session->is_due = 1;
            session->round = 0;
        }
}

/* Whether it leaves others no turn in the database: by the client's own transaction, or by one that its next message goes on with. */
static int is_open(const struct session *session) {
    return is_in_block(session) || (session->database != NULL && !sqlite3_get_autocommit(session->database));
}

static int has_lasted(uint64_t since, uint32_t most) { return most != 0 && clock_now() - since > most; }

/* Stops what has lasted too long. */
static void look_at(struct session *session) {
    const struct settings *settings = &session->settings;
    if (session->stop != NOT_STOPPED || session->is_gone)
        return;
    if ((session->turn.is_begun || session->is_waiting) && is_late(session))
        session_stop(session, TOOK_TOO_LONG);
    else if (session->is_waiting && session->waits_since != 0 && has_lasted(session->waits_since, settings->now[LOCK_TIMEOUT]))
        session_stop(session, WAITED_TOO_LONG);
    else if (!session_is_busy(session) && is_open(session)
             && has_lasted(session->rests_since, settings->now[IDLE_IN_TRANSACTION_SESSION_TIMEOUT]))
        session_stop(session, WAS_IDLE);
}

static void look_at_all(void) {
    static uint64_t looked;
    uint64_t now = clock_now();
    if (now - looked < LOOKS)
        return;
    looked = now;
    for (struct session *session = sessions; session != NULL; session = session->next)
        look_at(session);
}

int sessions_poll(void) {
    uint64_t until = clock_now() + ROUND;
    look_at_all();
    wake();
    while (is_one_due() && clock_now() < until) {
        give_turn();
        wake();
    }
    return is_one_due();
}

/* What the carrier tells, and asks. */

void session_take(struct session *session, const void *bytes, uint32_t count) {
    session->heard = clock_now();
    if (session->is_ending)
        return;
    struct text *to = session->turn.is_begun ? &session->later : &session->in;
    add_bytes(to, bytes, count);
    if (to->is_full) {
        session->is_ending = 1;
        session_stop(session, CANCELLED);
    } else if (!session->turn.is_begun && !session->is_waiting && !session->is_held) {
        want_turn(session);
    }
}

int session_has_room(struct session *session) {
    session->is_held = session->out.length >= MOST_UNSENT;
    return !session->is_held;
}

uint32_t session_sendable(const struct session *session) {
    return session->turn.is_begun || session->is_waiting ? session->settled : session->out.length;
}

static uint32_t left_to_send(const struct session *session) { return session->out.length - session->sent; }

int session_stream(struct session *session) {
    session_settle(session);
    while (!session_is_stopped(session) && left_to_send(session) > LITTLE_UNSENT) {
        session->is_sending = 1;
        turn_leave();
        session->is_sending = 0;
    }
    text_shift(&session->out, session->sent);
    session->settled = session->out.length;
    session->sent = 0;
    return session->stop == NOT_STOPPED;
}

int session_is_sent(struct session *session) {
    session->is_due |= session->is_sending && left_to_send(session) <= LITTLE_UNSENT;
    if (session->turn.is_begun || session->is_waiting || session->sent < session->out.length)
        return 0;
    session->sent = session->settled = session->out.length = 0;
    text_shrink(&session->out);
    if (session->is_held)
        want_turn(session);
    session->is_held = 0;
    return session->is_ending && !session->is_due;
}

void session_settle(struct session *session) { session->settled = session->out.length; }

void session_fall_silent(struct session *session) {
    session->is_silent = 1;
    if (session->turn.is_begun) {
        session_stop(session, CANCELLED);
    } else if (!session->is_due) {
        session->is_ending = 1;
        session->is_waiting = 0;
        session->out.length = session->sent;
    }
}

void session_drop(struct session *session) {
    session->is_gone = 1;
    if (session->turn.is_begun)
        session_stop(session, CANCELLED);
    else
        want_turn(session);
}

void session_begin(struct session *session) {
    uint32_t most = session->settings.now[STATEMENT_TIMEOUT];
    if (session->is_asked)
        return;
    session->is_asked = 1;
    session->deadline = most == 0 ? UINT64_MAX : clock_now() + most;
}

void session_rest(struct session *session) {
    session->is_asked = session->had_room = 0;
    session->stop = NOT_STOPPED;
    session->waits_since = 0;
    if (!is_in_block(session))
        settings_end(&session->settings, 1);
}

void session_stop(struct session *session, enum stop why) {
    if (!session->turn.is_begun && !session->is_waiting && why != WAS_IDLE)
        return;
    session->stop = why;
    if (!session->turn.is_begun || session->is_sending)
        want_turn(session);
    if (session->turn.is_begun && session->database != NULL)
        sqlite3_interrupt(session->database);
}

void session_wake(struct session *session) { want_turn(session); }

void session_wait(struct session *session) {
    if (session->waits_since == 0)
        session->waits_since = clock_now();
    session->is_waiting = 1;
}

struct session *session_of(uint32_t number) {
    struct session *session = sessions;
    while (session != NULL && session->number != number)
        session = session->next;
    return session == NULL || session->is_gone ? NULL : session;
}

int is_too_quiet(const struct session *session) {
    uint32_t most = session->is_known ? session->service->most_quiet : MOST_STRANGE;
    uint64_t since = session->is_known ? session->heard : session->began;
    return most != 0 && !session_is_busy(session) && clock_now() - since > most;
}
