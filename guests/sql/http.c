#include "http.h"

#include <string.h>

#include "door.h"
#include "log.h"
#include "page.h"
#include "query.h"
#include "request.h"
#include "table.h"
#include "whole.h"

#define METHODS "GET, HEAD, POST, OPTIONS"

/* A connection on which nothing is asked is closed after so many milliseconds. */
#define MOST_QUIET 60000

struct browser {
    struct session session;
    struct request request;
    struct query query;
    struct text body;       /* of the answer */
    int status;
    struct failure failure; /* where the status isn't 200 */
    enum form wanted;       /* of the whole database, which is still to be said */
    struct whole whole;
    struct visitor visitor;
    uint32_t taken;         /* bytes of what came that are dealt with */
    uint32_t unread;        /* bytes of a body that is passed over, after which the connection ends */
    int is_let_in;          /* the request, of which the body is still to come */
    int is_told_to_go_on;   /* it was said that the body is wanted */
    int is_silent;          /* the client says no more */
};

static struct browser *of(struct session *session) { return (struct browser *)session; }

/* Answers. */

static const char *reason(int status) {
    switch (status) {
    case 200: return "200 OK";
    case 204: return "204 No Content";
    case 400: return "400 Bad Request";
    case 401: return "401 Unauthorized";
    case 403: return "403 Forbidden";
    case 404: return "404 Not Found";
    case 405: return "405 Method Not Allowed";
    case 411: return "411 Length Required";
    case 413: return "413 Content Too Large";
    case 429: return "429 Too Many Requests";
    case 431: return "431 Request Header Fields Too Large";
    default: return "503 Service Unavailable";
    }
}

/* The first lines of an answer's head. */
static void begin_head(struct browser *browser, int status) {
    struct text *out = &browser->session.out;
    add(out, "HTTP/1.1 ");
    add(out, reason(status));
    add(out, browser->request.is_kept ? "" : "\r\nConnection: close");
    add(out, status == 204 || status == 405 ? "\r\nAllow: " METHODS : "");
    add(out, status == 401 ? "\r\nWWW-Authenticate: Basic realm=\"sql\"" : "");
    add(out, status == 429 ? "\r\nRetry-After: 10" : "");
    add(out, "\r\nCache-Control: no-store");
}

/* Sends an answer. Of one to HEAD the body is left out. Without memory for it the connection ends. */
static void answer(struct browser *browser, int status, const char *type, const char *bytes, uint32_t length) {
    struct session *session = &browser->session;
    struct text *out = &session->out;
    uint32_t begun = out->length;
    begin_head(browser, status);
    if (status != 204) {
        add(out, "\r\nContent-Type: ");
        add(out, type);
        add(out, "; charset=utf-8\r\nContent-Length: ");
        add_number(out, length);
    }
    add(out, "\r\n\r\n");
    if (browser->request.method != HEAD)
        add_bytes(out, bytes, length);
    if (out->is_full)
        text_cut(out, begun);
    session->is_ending |= (!browser->request.is_kept && browser->unread == 0) || out->length == begun;
}

static void refuse(struct browser *browser, int status, const char *why) {
    answer(browser, status, "text/plain", why, (uint32_t)strlen(why));
}

/* Questions. */

static void take_row(struct session *session, sqlite3_stmt *prepared, int64_t number) {
    struct browser *browser = of(session);
    if (browser->request.is_json)
        add_json_row(&browser->body, prepared, number == 1, browser->query.ended > 0);
    else
        add_row(&browser->body, prepared);
}

static void has_ended_query(struct session *session, const struct statement *statement, sqlite3_stmt *prepared, int64_t rows) {
    struct browser *browser = of(session);
    int64_t changes = statement->is_counted ? sqlite3_changes(session->database) : 0;
    if (browser->request.is_json)
        add_json_end(&browser->body, prepared, rows, changes, browser->query.ended > 0);
}

static void has_warned(struct session *session, const struct failure *warning) { (void)session, (void)warning; }

static void has_failed_query(struct session *session, const struct failure *failure) {
    of(session)->status = failure->code[0] == '5' && failure->code[1] != '4' ? 503 : 400;
    of(session)->failure = *failure;
}

static void say_failure(struct browser *browser) {
    struct text *body = &browser->body;
    text_cut(body, 0);
    if (browser->request.is_json) {
        add(body, "{\"error\": ");
        add_json_string(body, browser->failure.why, (uint32_t)strlen(browser->failure.why));
        add(body, ", \"code\": \"");
        add(body, browser->failure.code);
        add(body, "\"}\n");
    } else {
        add(body, "error: ");
        add(body, browser->failure.why);
        add(body, "\n");
    }
}

static void answer_question(struct browser *browser) {
    if (browser->status != 200)
        say_failure(browser);
    answer(browser, browser->status, browser->request.is_json ? "application/json" : "text/plain", browser->body.bytes,
           browser->body.length);
    text_drop(&browser->body);
}

/* A question is a whole of its own: a transaction that it leaves open is rolled back. */
static void is_over(struct session *session) {
    struct browser *browser = of(session);
    int is_open = session->database != NULL && !sqlite3_get_autocommit(session->database);
    if (is_open)
        sqlite3_exec(session->database, "ROLLBACK", NULL, NULL, NULL);
    session->is_failed = session->is_implicit = session->has_savepoint = 0;
    settings_start(&session->settings);
    if (is_open && browser->status == 200) {
        browser->status = 400;
        set_failure(&browser->failure, "25000", "the transaction was open at the end, and is rolled back");
    }
    if (browser->status == 200 && browser->request.is_json)
        add(&browser->body, "]}\n");
    if (browser->status == 200 && browser->body.is_full) {
        browser->status = 503;
        set_failure(&browser->failure, "53200", "out of memory for the answer; what was asked for is done");
    }
    answer_question(browser);
}

static const struct teller teller = {take_row, has_ended_query, has_warned, has_failed_query, is_over};

static void ask(struct browser *browser, const char *statements, uint32_t length, int only_reads) {
    browser->status = 200;
    if (!is_utf8(statements, length)) {
        browser->status = 400;
        set_failure(&browser->failure, "22021", NOT_UTF8);
        browser->body = (struct text){.most = MOST_ANSWER};
        answer_question(browser);
        return;
    }
    if (!text_start(&browser->body, MOST_ANSWER)) {
        refuse(browser, 503, "error: out of memory\n");
        return;
    }
    if (browser->request.is_json)
        add(&browser->body, "{\"results\": [");
    browser->query.teller = &teller;
    browser->query.answer = &browser->body;
    browser->query.only_reads = only_reads;
    query_start(&browser->session, &browser->query, statements, length);
}

/* The statements of a request: its body, or what stands after q= in a form's body or in the target. */
static void take_question(struct browser *browser, const char *body) {
    struct request *request = &browser->request;
    int is_body = request->method == POST, is_coded = !is_body || (request->is_form && request->length > 1 && memcmp(body, "q=", 2) == 0);
    const char *from = is_body ? body : request->asked;
    uint32_t length = is_body ? request->length : request->asked_length;
    char format[MOST_VALUE];
    if (request->asked != NULL && request->asked_length < sizeof format) {
        int32_t count = value_of(request->asked, request->asked_length, "format", format);
        request->is_json |= count == 4 && memcmp(format, "json", 4) == 0;
    }
    if (!is_coded) {
        ask(browser, from, length, 0);
        return;
    }
    char *decoded = sqlite3_malloc64((uint64_t)length + 1);
    int32_t count = decoded == NULL ? -1 : value_of(from, length, "q", decoded);
    if (decoded == NULL)
        refuse(browser, 503, "error: out of memory\n");
    else if (count < 0)
        refuse(browser, 400, "ask by /sql?q=SELECT+1, or by POST with statements as the body\n");
    else
        ask(browser, decoded, (uint32_t)count, !is_body);
    sqlite3_free(decoded);
}

/* The whole database. */

static void say_head_of_whole(struct browser *browser) {
    struct text *out = &browser->session.out;
    const struct whole *whole = &browser->whole;
    begin_head(browser, 200);
    if (whole->form == AS_SQL) {
        add(out, "\r\nContent-Type: application/sql; charset=utf-8");
        add(out, whole->is_in_chunks ? "\r\nTransfer-Encoding: chunked" : "");
    } else {
        add(out, "\r\nContent-Type: application/vnd.sqlite3\r\nContent-Length: ");
        add_number(out, (int64_t)whole_length(whole));
        add(out, "\r\nCksum: ");
        add_number(out, whole->sum);
    }
    add(out, "\r\n\r\n");
}

static void refuse_whole(struct browser *browser, const struct failure *failure) {
    browser->wanted = NO_FORM;
    browser->body = (struct text){.most = MOST_ANSWER};
    has_failed_query(&browser->session, failure);
    answer_question(browser);
}

static void say_whole(struct browser *browser) {
    struct session *session = &browser->session;
    struct whole *whole = &browser->whole;
    browser->request.is_kept &= whole->form == AS_FILE || !browser->request.is_old;
    whole->is_in_chunks = whole->form == AS_SQL && !browser->request.is_old;
    say_head_of_whole(browser);
    int is_said = browser->request.method != HEAD && whole_say(whole);
    whole_end(whole);
    session->is_ending |= !browser->request.is_kept || (browser->request.method != HEAD && !is_said);
}

static void send_whole(struct browser *browser) {
    struct failure failure;
    switch (whole_begin(&browser->session, browser->wanted, &browser->whole, &failure)) {
    case ENDED:
        browser->wanted = NO_FORM;
        say_whole(browser);
        break;
    case FAILED: refuse_whole(browser, &failure); break;
    default: session_wait(&browser->session); return;
    }
    session_rest(&browser->session);
}

static void ask_whole(struct browser *browser, enum form form) {
    session_begin(&browser->session);
    browser->wanted = form;
    send_whole(browser);
}

static void say_log(struct browser *browser) {
    const char *lines = log_lines()[0] == '\0' ? "nothing was said\n" : log_lines();
    answer(browser, 200, "text/plain", lines, (uint32_t)strlen(lines));
}

static void take_request(struct browser *browser, const char *body) {
    const struct request *request = &browser->request;
    if (request->method == OPTIONS)
        answer(browser, 204, NULL, NULL, 0);
    else if (strcmp(request->path, "/sql") == 0)
        take_question(browser, body);
    else if (strcmp(request->path, "/") == 0 && request->method != POST)
        answer(browser, 200, "text/html", page, (uint32_t)strlen(page));
    else if (strcmp(request->path, "/log") == 0 && request->method != POST)
        say_log(browser);
    else if (strcmp(request->path, "/db") == 0 && request->method != POST)
        ask_whole(browser, AS_FILE);
    else if (strcmp(request->path, "/dump") == 0 && request->method != POST)
        ask_whole(browser, AS_SQL);
    else
        refuse(browser, 404, "there are /, /sql, /db, /dump and /log\n");
}

/* The connection. */

/* Refuses a request, whose body isn't taken in, and ends the connection after it. */
static void end_with(struct browser *browser, int status, const char *why, uint32_t body) {
    uint32_t left = browser->session.in.length - browser->taken;
    browser->request.is_kept = 0;
    browser->unread = body > left ? body - left : 0;
    browser->taken = browser->session.in.length;
    refuse(browser, status, why);
}

static int is_data(const char *path) { return strcmp(path, "/sql") == 0 || strcmp(path, "/db") == 0 || strcmp(path, "/dump") == 0; }

/* Lets a request in by its head alone, before its body takes memory. Answers whether it is let in; where the session waits it may be
   yet. */
static int let_in(struct browser *browser) {
    const struct request *request = &browser->request;
    uint32_t whole = request->head + request->length;
    if (request->method == OTHER) {
        end_with(browser, 405, "GET, HEAD, POST and OPTIONS are served\n", whole);
        return 0;
    }
    if (request->is_strange && is_data(request->path)) {
        end_with(browser, 403, "a page of another place may not ask; a browser asks from the page at /\n", whole);
        return 0;
    }
    if (request->method == OPTIONS)
        return 1;
    enum verdict verdict = door_ask(&browser->visitor, &browser->session, request->password);
    browser->session.is_known |= verdict == RIGHT;
    if (verdict == WRONG)
        end_with(browser, 401, "a password is asked for\n", whole);
    else if (verdict == TOO_MANY)
        end_with(browser, 429, "too many passwords are looked at already\n", whole);
    return verdict == RIGHT;
}

/* The status of a head that came, or hasn't come whole and is too long, and why it is refused; 0 where it isn't. */
static int status_of(struct browser *browser, uint32_t head, uint32_t left) {
    if (head == 0)
        return left > MOST_HEAD ? 431 : 0;
    int status = read_request(browser->session.in.bytes + browser->taken, head, &browser->request);
    return status == 0 && browser->request.length > MOST_ASKED ? 413 : status;
}

/* Takes the next request, if it has come whole. Answers whether it had. */
static int take_next(struct browser *browser) {
    struct session *session = &browser->session;
    const char *from = session->in.bytes + browser->taken;
    uint32_t left = session->in.length - browser->taken, head = head_of(from, left);
    int status = status_of(browser, head, left);
    if (status != 0) {
        if (status == 413)
            end_with(browser, status, "a question has more than 262144 bytes\n", head + browser->request.length);
        else
            end_with(browser, status, "that is no request that is served here\n", 0);
        return 0;
    }
    if (head == 0 || !(browser->is_let_in || (browser->is_let_in = let_in(browser))))
        return 0;
    if (left - head < browser->request.length) {
        if (browser->request.is_expecting && !browser->is_told_to_go_on)
            add(&session->out, "HTTP/1.1 100 Continue\r\n\r\n");
        browser->is_told_to_go_on = 1;
        return 0;
    }
    browser->is_told_to_go_on = browser->is_let_in = 0;
    browser->taken += head + browser->request.length;
    take_request(browser, from + head);
    return 1;
}

/* Passes over what is left of a body that isn't wanted. The client has it sent before it reads why. */
static void pass_over(struct browser *browser) {
    struct session *session = &browser->session;
    uint32_t count = browser->unread < session->in.length ? browser->unread : session->in.length;
    browser->unread -= count;
    browser->taken = session->in.length;
    session->is_ending |= browser->unread == 0;
}

static void take(struct session *session) {
    struct browser *browser = of(session);
    browser->taken = 0;
    if (browser->unread > 0)
        pass_over(browser);
    while (browser->unread == 0 && !session->is_ending && !session->is_waiting && session_has_room(session) && take_next(browser))
        ;
    text_shift(&session->in, browser->taken);
    session->is_ending |= browser->is_silent && !session->is_waiting && !session->is_held;
}

static void go_on(struct session *session) {
    if (of(session)->query.text != NULL)
        query_go_on(session, &of(session)->query);
    else if (of(session)->wanted != NO_FORM)
        send_whole(of(session));
    if (!session->is_waiting)
        take(session);
}

/* What was asked whole is answered; a body that was cut short is left. */
static void end_of_input(struct session *session) {
    of(session)->is_silent = 1;
    session->is_ending |= !session_is_busy(session) && !session->is_held;
}

static void give_up(struct session *session, const struct failure *failure, int was_waiting) {
    (void)was_waiting;
    session->was_block = is_in_block(session);
    if (of(session)->wanted != NO_FORM) {
        refuse_whole(of(session), failure);
        session_rest(session);
    } else {
        query_fail(session, &of(session)->query, failure);
    }
}

static void drop(struct session *session) {
    door_leave(&of(session)->visitor);
    query_drop(&of(session)->query);
    text_drop(&of(session)->body);
}

const struct service http = {80, sizeof(struct browser), MOST_QUIET, go_on, end_of_input, give_up, drop};
