#include "door.h"

#include <string.h>

#include "clock.h"
#include "password.h"

/* So many may wait, rounds are done at once, and milliseconds go by at least from one that is begun to the next. */
#define MOST_IN_LINE 8
#define ROUNDS 4
#define BETWEEN 2000

static struct visitor *first; /* the one who is at work, if one is */
static struct stretching stretching;
static int is_at_work;
static uint64_t next_step, next_begin; /* when, in steps and in milliseconds */

/* Digests of what is tried, and of the password, where it is known. */
static uint8_t tried[DIGEST], right[DIGEST];
static int is_right_known;

/* Reads the password out of credentials. Answers its length, or -1 where there is none. */
static int read_password(const char *credentials, uint8_t to[MOST_CREDENTIALS]) {
    int length = from_base64(credentials, (uint32_t)strlen(credentials), to, MOST_CREDENTIALS);
    const uint8_t *colon = length <= 0 ? NULL : memchr(to, ':', (size_t)length);
    if (colon == NULL)
        return -1;
    length = (int)(to + length - colon - 1);
    memmove(to, colon + 1, (size_t)length);
    return length;
}

static int is_same(const char *one, const char *other) {
    uint32_t length = (uint32_t)strlen(one);
    return length == strlen(other) && are_same((const uint8_t *)one, (const uint8_t *)other, length);
}

static enum verdict stand_in_line(struct visitor *visitor, struct session *session) {
    struct visitor **place = &first;
    for (int count = 0; *place != NULL; place = &(*place)->next)
        if (++count == MOST_IN_LINE)
            return TOO_MANY;
    *place = visitor;
    visitor->next = NULL;
    visitor->session = session;
    visitor->is_in_line = 1;
    session->is_waiting = 1;
    return NOT_YET;
}

enum verdict door_ask(struct visitor *visitor, struct session *session, const char *credentials) {
    uint8_t given[MOST_CREDENTIALS], digest[DIGEST];
    if (!password.is_set)
        return RIGHT;
    if (visitor->verdict != NOT_YET && is_same(credentials, visitor->credentials))
        return visitor->verdict;
    int length = read_password(credentials, given);
    if (length < 0)
        return WRONG;
    keyed_digest(password.server_key, DIGEST, given, (uint32_t)length, digest);
    visitor->verdict = is_right_known && are_same(digest, right, DIGEST) ? RIGHT : NOT_YET;
    memcpy(visitor->credentials, credentials, strlen(credentials) + 1);
    return visitor->verdict == RIGHT ? RIGHT : stand_in_line(visitor, session);
}

void door_leave(struct visitor *visitor) {
    if (!visitor->is_in_line)
        return;
    if (visitor == first)
        is_at_work = 0;
    struct visitor **place = &first;
    while (*place != visitor)
        place = &(*place)->next;
    *place = visitor->next;
    visitor->is_in_line = 0;
}

static void begin(const struct visitor *visitor) {
    uint8_t given[MOST_CREDENTIALS];
    int length = read_password(visitor->credentials, given);
    keyed_digest(password.server_key, DIGEST, given, (uint32_t)length, tried);
    password_start(&stretching, given, (uint32_t)length);
    is_at_work = 1;
    next_begin = clock_now() + BETWEEN;
}

/* It is found out of the first in the line, who goes on. */
static void find_out(struct visitor *visitor) {
    struct session *session = visitor->session;
    visitor->verdict = is_password(&stretching) ? RIGHT : WRONG;
    if (visitor->verdict == RIGHT) {
        memcpy(right, tried, DIGEST);
        is_right_known = 1;
    }
    door_leave(visitor);
    session_wake(session);
}

void door_poll(void) {
    if (first == NULL || clock_steps() < next_step || (!is_at_work && clock_now() < next_begin))
        return;
    uint64_t begun = clock_steps();
    if (!is_at_work)
        begin(first);
    int is_done = stretch(&stretching, ROUNDS);
    /* All else has as long as this had. */
    next_step = 2 * clock_steps() - begun;
    if (is_done)
        find_out(first);
}
