#include "postgres.h"

#include <string.h>

#include "clock.h"
#include "copy.h"
#include "extended.h"
#include "messages.h"
#include "password.h"
#include "query.h"
#include "rows.h"
#include "scram.h"
#include "trigger.h"

/* What a client may begin with, in place of a message's type. */
#define VERSION_3 196608
#define ASKS_FOR_TLS 80877103
#define ASKS_FOR_GSS 80877104
#define ASKS_TO_CANCEL 80877102

/* Kinds of authentication messages. */
enum { IS_IN = 0, ASKS_SASL = 10, GOES_ON_SASL = 11, ENDS_SASL = 12 };

/* The most bytes of what a connection begins with, and of what proves the password: nobody knows yet who says it. */
#define MOST_START 10000
#define MOST_PROOF 4096

struct client {
    struct session session;
    enum { STARTS, SAYS_WHO, PROVES, IS_READY } stage;
    struct scram scram;
    uint32_t key;         /* by which its waiting can be ended */
    int is_psql;          /* it says that it is this */
    int is_skipping;      /* messages, until the client says Sync */
    struct text trigger;  /* that comes in parts, as far as it came */
    struct query query;
    struct columns columns; /* of the statement that runs */
    uint32_t described;     /* where its columns stand in what is said */
    struct extended extended;
    struct copy copy;
};

static struct client *of(struct session *session) { return (struct client *)session; }

struct extended *extended_of(struct session *session) { return &of(session)->extended; }

struct copy *copy_of(struct session *session) { return &of(session)->copy; }

void say_ready(struct session *session) {
    uint32_t spare = session->out.spare;
    session->out.spare = 0;
    uint32_t at = message_begin(&session->out, 'Z');
    add(&session->out, session->is_failed ? "E" : session->database != NULL && !sqlite3_get_autocommit(session->database) ? "T" : "I");
    message_end(&session->out, at);
    session->out.spare = spare;
    /* Where not even this has room there is nothing left to say. */
    session->is_ending |= session->out.is_full != 0;
}

static void end_with(struct session *session, const char *code, const char *why) {
    say_error(&session->out, "FATAL", code, why);
    session->is_ending = 1;
}

/* Simple queries. */

static void take_row(struct session *session, sqlite3_stmt *prepared, int64_t number) {
    struct client *client = of(session);
    if (number == 1) {
        columns_drop(&client->columns);
        columns_start(&client->columns, prepared, NULL, NULL);
        client->described = say_columns(&session->out, prepared, NULL);
    }
    say_row(&session->out, prepared, &client->columns);
}

static void has_ended_query(struct session *session, const struct statement *statement, sqlite3_stmt *prepared, int64_t rows) {
    struct client *client = of(session);
    uint32_t begun = session->out.length;
    if (rows > 0)
        retype_columns(&session->out, client->described, prepared, &client->columns);
    else if (prepared != NULL && sqlite3_column_count(prepared) > 0)
        say_columns(&session->out, prepared, NULL);
    if (strcmp(statement->tag, "SELECT") != 0)
        rows = sqlite3_changes(session->database);
    say_complete(&session->out, statement->tag, statement->is_counted, rows);
    if (session->out.is_full) {
        /* It has ended, and there is no memory to say so. */
        text_cut(&session->out, begun);
        session->is_ending = 1;
    }
    forget_after(session, &client->extended, statement);
}

static void has_warned(struct session *session, const struct failure *warning) { say_warning(&session->out, warning->code, warning->why); }

static void has_failed_query(struct session *session, const struct failure *failure) {
    if (session->out.is_full)
        text_cut(&session->out, session->out.length);
    say_error(&session->out, "ERROR", failure->code, failure->why);
}

static void is_over(struct session *session) {
    columns_drop(&of(session)->columns);
    say_ready(session);
}

static const struct teller teller = {take_row, has_ended_query, has_warned, has_failed_query, is_over};

static void ask(struct client *client, const char *text, uint32_t length) {
    struct statement statement;
    read_statement(text, &statement);
    if (statement.kind == COPY && is_blank(statement.end)) {
        copy_start(&client->session, &client->copy, statement.begin, (uint32_t)(text + length - statement.begin));
        return;
    }
    client->query.teller = &teller;
    client->query.answer = &client->session.out;
    query_start(&client->session, &client->query, text, length);
}

static void refuse_query(struct session *session, const char *code, const char *why) {
    session->was_block = is_in_block(session);
    has_failed(session, NOTHING);
    say_error(&session->out, "ERROR", code, why);
    say_ready(session);
}

static void take_statements(struct client *client, const char *text, uint32_t length) {
    struct session *session = &client->session;
    struct text *kept = &client->trigger;
    switch (client->is_psql ? take_part(kept, text) : IS_NONE) {
    case IS_NONE: ask(client, text, length); break;
    case IS_PART:
        say_complete(&session->out, "CREATE TRIGGER, goes on until END", 0, 0);
        say_ready(session);
        break;
    case IS_LAST:
        ask(client, kept->bytes, kept->length);
        text_drop(kept);
        break;
    case IS_ELSE: refuse_query(session, "42601", "the trigger before this has no END: neither was run"); break;
    case NO_ROOM: refuse_query(session, "54000", "there is no memory for a trigger of this length"); break;
    }
}

static void take_query(struct client *client, const char *text, uint32_t length) {
    struct session *session = &client->session;
    forget_unnamed(&client->extended);
    if (length == 0 || memchr(text, '\0', length) != text + length - 1) {
        refuse_query(session, "08P01", "a query has one zero, at its end");
    } else if (!is_utf8(text, length - 1)) {
        refuse_query(session, "22021", NOT_UTF8);
    } else if (is_blank(text)) {
        say_empty(&session->out, 'I');
        say_ready(session);
    } else {
        take_statements(client, text, length - 1);
    }
}

/* The beginning. */

static void let_in(struct client *client) {
    static const char *const parameters[][2] = {
        {"server_encoding", "UTF8"}, {"client_encoding", "UTF8"}, {"DateStyle", "ISO, MDY"}, {"TimeZone", "UTC"},
        {"integer_datetimes", "on"}, {"standard_conforming_strings", "on"},
    };
    struct text *out = &client->session.out;
    char version[48];
    say_authentication(out, IS_IN, NULL, 0);
    say_parameter(out, "server_version", sqlite3_snprintf(sizeof version, version, "15.0 (SQLite %s)", sqlite3_libversion()));
    for (unsigned i = 0; i < sizeof parameters / sizeof parameters[0]; i++)
        say_parameter(out, parameters[i][0], parameters[i][1]);
    uint32_t at = message_begin(out, 'K');
    add_32(out, client->session.number);
    add_32(out, client->key);
    message_end(out, at);
    client->stage = IS_READY;
    client->session.is_known = 1;
    say_ready(&client->session);
}

/* What a client has run, or waits for, is stopped. Nobody is told whether there was one. */
static void cancel(uint32_t number, uint32_t key) {
    struct session *session = session_of(number);
    if (session != NULL && session->service == &postgres && of(session)->key == key)
        session_stop(session, CANCELLED);
}

static void give_up(struct session *session, const struct failure *failure, int was_waiting) {
    struct client *client = of(session);
    session->was_block = is_in_block(session);
    if (client->query.text != NULL) {
        query_fail(session, &client->query, failure);
    } else if (was_waiting && client->copy.stage != NO_COPY) {
        copy_fail(session, &client->copy, failure);
    } else if (was_waiting) {
        has_failed(session, NOTHING);
        say_error(&session->out, "ERROR", failure->code, failure->why);
        client->is_skipping = 1;
    } else {
        sqlite3_exec(session->database, "ROLLBACK", NULL, NULL, NULL);
        end_with(session, failure->code, failure->why);
    }
}

static uint32_t make_key(uint32_t number) {
    uint64_t about[2] = {clock_steps(), number};
    uint8_t digest[DIGEST];
    keyed_digest(password.server_key, DIGEST, about, sizeof about, digest);
    return get_32(digest);
}

/* Names and values, and an empty name. Answers whether they are that. */
static int read_parameters(struct client *client, struct reader *reader) {
    for (const char *name = read_string(reader); name[0] != '\0'; name = read_string(reader)) {
        const char *value = read_string(reader);
        if (strcmp(name, "application_name") == 0)
            client->is_psql = strcmp(value, "psql") == 0;
    }
    return is_at_end(reader);
}

/* Takes in the first messages, which have no type. */
static void take_start(struct client *client, const uint8_t *message, uint32_t length) {
    struct session *session = &client->session;
    uint32_t asked = get_32(message + 4);
    if (asked == ASKS_FOR_TLS || asked == ASKS_FOR_GSS) {
        add_bytes(&session->out, "N", 1);
    } else if (asked == ASKS_TO_CANCEL) {
        session->is_ending = 1;
        if (length == 16)
            cancel(get_32(message + 8), get_32(message + 12));
    } else if (asked >> 16 != VERSION_3 >> 16) {
        end_with(session, "0A000", "version 3.0 of the protocol alone is spoken here");
    } else if (!read_parameters(client, &(struct reader){message + 8, message + length, 0})) {
        end_with(session, "08P01", "what the connection begins with is not as the protocol has it");
    } else {
        client->key = make_key(session->number);
        if (password.is_set) {
            say_authentication(&session->out, ASKS_SASL, "SCRAM-SHA-256\0", 15);
            client->stage = SAYS_WHO;
        } else {
            let_in(client);
        }
    }
}

/* Takes in what a client says to prove that it has the password. */
static void take_proof(struct client *client, struct reader *reader) {
    struct session *session = &client->session;
    struct text answer = {.most = 4096};
    int is_good;
    if (client->stage == SAYS_WHO) {
        uint32_t length;
        const char *mechanism = read_string(reader), *message = (const char *)read_value(reader, &length);
        is_good = is_at_end(reader) && message != NULL && strcmp(mechanism, "SCRAM-SHA-256") == 0
                  && scram_begin(&client->scram, message, length, session->number, &answer);
    } else {
        is_good = scram_end(&client->scram, (const char *)reader->at, (uint32_t)(reader->end - reader->at), &answer);
    }
    if (!is_good)
        end_with(session, "28P01", "password authentication failed");
    else
        say_authentication(&session->out, client->stage == SAYS_WHO ? GOES_ON_SASL : ENDS_SASL, answer.bytes, answer.length);
    text_drop(&answer);
    if (is_good && client->stage == SAYS_WHO) {
        client->stage = PROVES;
    } else if (is_good) {
        scram_drop(&client->scram);
        let_in(client);
    }
}

/* Extended queries. */

static enum outcome take_sync(struct client *client, struct failure *failure) {
    struct session *session = &client->session;
    enum outcome outcome = session->database == NULL ? ENDED : end_implicit(session, failure);
    if (outcome == WAITS)
        return WAITS;
    if (outcome != ENDED)
        say_error(&session->out, "ERROR", failure->code, failure->why);
    if (!is_in_block(session))
        forget_portals(&client->extended);
    client->is_skipping = 0;
    say_ready(session);
    return ENDED;
}

static enum outcome take_extended(struct client *client, uint8_t type, struct reader *reader, struct failure *failure) {
    struct session *session = &client->session;
    switch (type) {
    case 'P': return take_parse(session, &client->extended, reader, failure);
    case 'B': return take_bind(session, &client->extended, reader, failure);
    case 'D': return take_describe(session, &client->extended, reader, failure);
    case 'E': return take_execute(session, &client->extended, reader, failure);
    case 'C': return take_close(session, &client->extended, reader, failure);
    case 'H': return ENDED;
    case 'd':
    case 'c':
    case 'f': return ENDED; /* of COPY: what comes after it has failed */
    default: set_failure(failure, "08P01", "a message of a type that is not served here"); return FAILED;
    }
}

/* Takes a message. Answers whether it is to be taken again, after waiting. */
static int take_message(struct client *client, const uint8_t *message, uint32_t length) {
    struct session *session = &client->session;
    struct reader reader = {message + 5, message + length, 0};
    struct failure failure;
    enum outcome outcome = ENDED;
    session->was_block = is_in_block(session);
    session_begin(session);
    if (client->stage == SAYS_WHO || client->stage == PROVES) {
        if (message[0] == 'p')
            take_proof(client, &reader);
        else
            session->is_ending = 1;
    } else if (message[0] == 'X') {
        session->is_ending = 1;
    } else if (client->copy.stage == TAKES_ROWS) {
        copy_take(session, &client->copy, message[0], (const char *)message + 5, length - 5);
    } else if (message[0] == 'S') {
        outcome = take_sync(client, &failure);
    } else if (message[0] == 'Q' && !client->is_skipping) {
        take_query(client, (const char *)message + 5, length - 5);
    } else if (!client->is_skipping) {
        outcome = take_extended(client, message[0], &reader, &failure);
    }
    if (outcome == WAITS)
        session_wait(session);
    if (outcome == FAILED) {
        has_failed(session, NOTHING);
        text_cut(&session->out, session->out.length);
        say_error(&session->out, "ERROR", failure.code, failure.why);
        client->is_skipping = 1;
    }
    if (!session->is_waiting)
        session_rest(session);
    return outcome == WAITS;
}

/* What is seen ahead in messages that have come: whether those up to a place belong to the one statement that is executed until the
   client's next Sync. */
struct ahead {
    uint32_t until;
    int is_alone;
};

static struct ahead look_ahead(const struct text *in, uint32_t from) {
    uint32_t executed = 0; /* where the first message that executes ends */
    for (uint32_t at = from;;) {
        const uint8_t *message = (const uint8_t *)in->bytes + at;
        uint32_t length = message_length(message, in->length - at, 1, 4, MOST_ASKED);
        if (length == 0 || length == NO_LENGTH)
            return (struct ahead){in->length, 0};
        at += length;
        if (message[0] == 'S')
            return (struct ahead){at, 1};
        if (message[0] == 'E' && executed > 0)
            return (struct ahead){executed, 0};
        if (message[0] == 'E')
            executed = at;
    }
}

/* The length of the next message at the stage at which the client is, as `message_length` has it. */
static uint32_t next_length(const struct client *client, const uint8_t *bytes, uint32_t count) {
    switch (client->stage) {
    case STARTS: return message_length(bytes, count, 0, 8, MOST_START);
    case SAYS_WHO:
    case PROVES: return message_length(bytes, count, 1, 4, MOST_PROOF);
    default: return message_length(bytes, count, 1, 4, MOST_ASKED);
    }
}

/* Takes in whole messages, as long as it doesn't wait and the answers have room. */
static void take(struct session *session) {
    struct client *client = of(session);
    struct ahead ahead = {0, 0};
    uint32_t done = 0;
    while (!session->is_ending && !session->is_waiting && session_has_room(session)) {
        const uint8_t *message = (const uint8_t *)session->in.bytes + done;
        uint32_t length = next_length(client, message, session->in.length - done);
        if (length == NO_LENGTH)
            end_with(session, "08P01", "a message has more than 262144 bytes, or a length that the protocol doesn't have there");
        if (length == 0 || length == NO_LENGTH)
            break;
        session_settle(session);
        if (client->stage == STARTS) {
            take_start(client, message, length);
        } else {
            if (client->stage == IS_READY && ahead.until <= done)
                ahead = look_ahead(&session->in, done);
            client->extended.is_alone = ahead.is_alone;
            if (take_message(client, message, length))
                break;
        }
        done += length;
    }
    text_shift(&session->in, done);
}

static void go_on(struct session *session) {
    if (of(session)->query.text != NULL)
        query_go_on(session, &of(session)->query);
    else if (of(session)->copy.stage != NO_COPY && of(session)->copy.stage != TAKES_ROWS)
        copy_go_on(session, &of(session)->copy);
    if (!session->is_waiting)
        take(session);
}

/* A client that ends without a word has vanished: what it left open is rolled back. */
static void end_of_input(struct session *session) { session_fall_silent(session); }

static void drop(struct session *session) {
    struct client *client = of(session);
    query_drop(&client->query);
    copy_drop(&client->copy);
    columns_drop(&client->columns);
    forget_all(&client->extended);
    scram_drop(&client->scram);
    text_drop(&client->trigger);
}

const struct service postgres = {5432, sizeof(struct client), 0, go_on, end_of_input, give_up, drop};
