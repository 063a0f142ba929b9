#include "whole.h"

#include <string.h>

#include "cksum.h"
#include "clock.h"
#include "dump.h"

/* So many bytes of the file are said at once. */
#define PIECE (8 * 1024)

/* As long as it goes on the client has as much time as one who leaves a transaction open: who takes nothing stands in others' way. */
static void has_time(struct session *session) {
    uint32_t most = session->settings.now[IDLE_IN_TRANSACTION_SESSION_TIMEOUT];
    session->deadline = most == 0 ? UINT64_MAX : clock_now() + most;
}

static uint8_t *page_room(const struct whole *whole) { return sqlite3_malloc64(whole->pages.size); }

static int find_sum(struct whole *whole) {
    const struct pages *pages = &whole->pages;
    uint8_t *page = page_room(whole);
    int is_read = page != NULL;
    whole->sum = 0;
    for (uint32_t number = 1; is_read && number <= pages->count; number++) {
        is_read = pages_read(pages, number, page) && !session_is_stopped(whole->session);
        whole->sum = cksum(whole->sum, page, is_read ? pages->size : 0);
        has_time(whole->session);
    }
    whole->sum = cksum_end(whole->sum, whole_length(whole));
    sqlite3_free(page);
    return is_read;
}

enum outcome whole_begin(struct session *session, enum form form, struct whole *whole, struct failure *failure) {
    memset(whole, 0, sizeof *whole);
    whole->session = session;
    int said = session_open(session) ? pages_begin(&whole->pages, session->database) : SQLITE_NOMEM;
    if ((said & 0xff) == SQLITE_BUSY)
        return WAITS;
    whole->form = form;
    if (said == SQLITE_OK && (form == AS_SQL || find_sum(whole)))
        return ENDED;
    if (session->stop != NOT_STOPPED)
        stop_failure(session, failure);
    else if (said == SQLITE_OK || (said & 0xff) == SQLITE_NOMEM)
        set_failure(failure, "53200", "out of memory");
    else
        set_failure(failure, "58030", sqlite3_errmsg(session->database));
    if (said == SQLITE_OK)
        whole_end(whole);
    whole->form = NO_FORM;
    return FAILED;
}

uint64_t whole_length(const struct whole *whole) { return (uint64_t)whole->pages.size * whole->pages.count; }

static int say_file(struct whole *whole) {
    struct text *out = &whole->session->out;
    uint8_t *page = page_room(whole);
    int is_said = page != NULL;
    for (uint32_t number = 1; is_said && number <= whole->pages.count; number++) {
        is_said = pages_read(&whole->pages, number, page);
        add_bytes(out, page, is_said ? whole->pages.size : 0);
        if (out->length >= PIECE || number == whole->pages.count)
            is_said = is_said && !out->is_full && session_stream(whole->session);
        has_time(whole->session);
    }
    sqlite3_free(page);
    return is_said;
}

static int say_piece(void *with, struct text *piece) {
    struct whole *whole = with;
    struct text *out = &whole->session->out;
    char head[16];
    if (piece->length == 0)
        return 1;
    if (whole->is_in_chunks)
        add(out, sqlite3_snprintf(sizeof head, head, "%x\r\n", piece->length));
    add_bytes(out, piece->bytes, piece->length);
    add(out, whole->is_in_chunks ? "\r\n" : "");
    has_time(whole->session);
    return !out->is_full && session_stream(whole->session);
}

int whole_say(struct whole *whole) {
    int is_said = whole->form == AS_FILE ? say_file(whole) : dump(whole->session->database, say_piece, whole) == SQLITE_OK;
    if (is_said && whole->is_in_chunks)
        add(&whole->session->out, "0\r\n\r\n");
    whole_end(whole);
    return is_said && !whole->session->out.is_full;
}

void whole_end(struct whole *whole) {
    if (whole->form != NO_FORM)
        pages_end(&whole->pages);
    whole->form = NO_FORM;
}
