/* Sessions of guests/sql without a network: each line of standard input does something to one, and its answer is a line. It is ended by a
   watchdog where a line takes longer than some seconds.

     open PLACE PORT    a connection to a port of the guest's
     take PLACE HEX     these bytes come
     end PLACE          the client says no more
     look PLACE         nothing
     slow PLACE N       no more than N bytes are taken of what is said to it from here on
     later N            N milliseconds go by
     turn               a turn of the guest's loop

   The answer is 'there' or 'gone', which the connection is then, and what was said to it since the last time, in hex. */
#include <stdio.h>
#include <stdlib.h>
#include <string.h>
#include <unistd.h>

#include "../../guests/sql/database.h"
#include "../../guests/sql/door.h"
#include "../../guests/sql/http.h"
#include "../../guests/sql/log.h"
#include "../../guests/sql/postgres.h"
#include "disk.h"

#define MOST 1048576
#define PLACES 16
#define WATCHDOG 10 /* seconds */

static struct place {
    struct session *session;
    struct text said;
    uint32_t takes; /* so many bytes yet */
} places[PLACES];

static struct place *place_of(const struct session *session) {
    for (int i = 0; i < PLACES; i++)
        if (places[i].session == session)
            return &places[i];
    abort();
}

void carry(struct session *session) {
    struct place *place = place_of(session);
    uint32_t left = session_sendable(session) - session->sent, count = left < place->takes ? left : place->takes;
    add_bytes(&place->said, session->out.bytes + session->sent, count);
    session->sent += count;
    place->takes -= count;
    if (!session_is_sent(session) && !is_too_quiet(session))
        return;
    session_drop(session);
    place->session = NULL;
}

static uint8_t digit(char c) { return (uint8_t)(c <= '9' ? c - '0' : c - 'a' + 10); }

static uint32_t bytes_of(const char *hex, uint8_t *to) {
    uint32_t count = 0;
    for (; hex != NULL && hex[0] != '\0' && hex[1] != '\0'; hex += 2)
        to[count++] = (uint8_t)(digit(hex[0]) << 4 | digit(hex[1]));
    return count;
}

static void tell(struct place *place) {
    printf(place->session == NULL ? "gone " : "there ");
    for (uint32_t i = 0; i < place->said.length; i++)
        printf("%02x", (uint8_t)place->said.bytes[i]);
    printf("\n");
    text_cut(&place->said, 0);
}

static void work(void) {
    while (sessions_poll())
        ;
}

static void do_to(struct place *place, const char *what, const char *with) {
    static uint8_t bytes[MOST];
    if (strcmp(what, "open") == 0) {
        place->said.most = 64 * MOST;
        place->takes = UINT32_MAX;
        place->session = session_start(atoi(with) == http.port ? &http : &postgres, NULL);
    } else if (place->session != NULL) {
        if (strcmp(what, "slow") == 0)
            place->takes = (uint32_t)atoi(with);
        else if (strcmp(what, "take") == 0)
            session_take(place->session, bytes, bytes_of(with, bytes));
        else if (strcmp(what, "end") == 0)
            place->session->service->end_of_input(place->session);
        carry(place->session);
        work();
    }
    tell(place);
}

static void turn(void) {
    work();
    door_poll();
    for (int i = 0; i < PLACES; i++)
        if (places[i].session != NULL)
            carry(places[i].session);
}

int main(int count, char **words) {
    static char line[2 * MOST + 64];
    if (count < 2)
        return 2;
    medium_make(words[1]);
    if (log_start() != SQLITE_OK || sqlite3_initialize() != SQLITE_OK || vfs_register() != SQLITE_OK || !vfs_start())
        return 2;
    database_start();
    while (fgets(line, sizeof line, stdin) != NULL) {
        const char *what = strtok(line, " \n"), *which = strtok(NULL, " \n"), *with = strtok(NULL, " \n");
        alarm(WATCHDOG);
        if (strcmp(what, "later") == 0)
            clock_ahead += (uint64_t)atoi(which);
        if (strcmp(what, "later") == 0 || strcmp(what, "turn") == 0)
            turn();
        if (which != NULL && strcmp(what, "later") != 0)
            do_to(&places[atoi(which) % PLACES], what, with);
        else
            printf("\n");
        fflush(stdout);
    }
    for (int i = 0; i < PLACES; i++) {
        if (places[i].session != NULL)
            session_drop(places[i].session);
        text_drop(&places[i].said);
    }
    work();
    return 0;
}
