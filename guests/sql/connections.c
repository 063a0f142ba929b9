#include "connections.h"

#include <string.h>

#include "clock.h"
#include "http.h"
#include "postgres.h"
#include "session.h"

#include "lwip/pbuf.h"
#include "lwip/priv/tcp_priv.h"
#include "lwip/tcp.h"

#define MOST_AT_ONCE 0xffff

/* A client that says nothing is asked after half a minute whether it is still there, and is given up after five questions more without an
   answer. Failures of hosts are shorter. */
#define KEEP_IDLE 30000
#define KEEP_EVERY 6000
#define KEEP_COUNT 5

/* A stranger has so many milliseconds where others wait for a place. */
#define MOST_IN_THE_WAY 5000

static unsigned places_taken;

/* Those that wait for a place, in the order in which they came. */
static struct {
    struct tcp_pcb *connection;
    const struct service *service;
} line[2 * BACKLOG];
static unsigned in_line;

static void send(struct session *session) {
    struct tcp_pcb *connection = session->connection;
    struct text *out = &session->out;
    while (session->sent < session_sendable(session)) {
        uint32_t count = LWIP_MIN(session_sendable(session) - session->sent, LWIP_MIN(tcp_sndbuf(connection), MOST_AT_ONCE));
        if (count == 0 || tcp_write(connection, out->bytes + session->sent, (u16_t)count, TCP_WRITE_FLAG_COPY) != ERR_OK)
            break;
        session->sent += count;
    }
    tcp_output(connection);
}

/* Lets the client send more. */
static void let_send(struct session *session) {
    while (session->owed > 0) {
        u16_t count = (u16_t)LWIP_MIN(session->owed, MOST_AT_ONCE);
        tcp_recved(session->connection, count);
        session->owed -= count;
    }
}

static void give_up_place(struct session *session) {
    places_taken--;
    session_drop(session);
}

/* Answers ERR_ABRT where the connection had to be aborted, as callbacks of lwIP's must. */
static err_t end(struct session *session) {
    struct tcp_pcb *connection = session->connection;
    tcp_arg(connection, NULL);
    tcp_recv(connection, NULL);
    tcp_sent(connection, NULL);
    tcp_poll(connection, NULL, 0);
    tcp_err(connection, NULL);
    let_send(session);
    give_up_place(session);
    if (tcp_close(connection) == ERR_OK)
        return ERR_OK;
    tcp_abort(connection);
    return ERR_ABRT;
}

/* Sends what there is to say, and ends the session where it is to end. */
static err_t go_on(struct session *session) {
    send(session);
    if (session_is_sent(session))
        return end(session);
    if (!session_is_busy(session) && !session->is_held)
        let_send(session);
    return ERR_OK;
}

void carry(struct session *session) { go_on(session); }

static err_t on_receive(void *arg, struct tcp_pcb *connection, struct pbuf *data, err_t error) {
    struct session *session = arg;
    (void)connection;
    if (error != ERR_OK)
        session->is_ending = 1;
    if (data == NULL || error != ERR_OK) {
        session->service->end_of_input(session);
        return go_on(session);
    }
    session->owed += data->tot_len;
    for (struct pbuf *part = data; part != NULL; part = part->next)
        session_take(session, part->payload, part->len);
    pbuf_free(data);
    return go_on(session);
}

static err_t on_sent(void *arg, struct tcp_pcb *connection, u16_t count) {
    (void)connection, (void)count;
    return go_on(arg);
}

static err_t on_poll(void *arg, struct tcp_pcb *connection) {
    struct session *session = arg;
    int is_too_long = is_too_quiet(session)
                      || (in_line > 0 && !session->is_known && !session_is_busy(session) && clock_now() - session->began > MOST_IN_THE_WAY);
    if (is_too_long && !session->is_known) {
        /* Also where it doesn't take what it is told. `on_error` gives its place up. */
        tcp_abort(connection);
        return ERR_ABRT;
    }
    session->is_ending |= is_too_long;
    return go_on(session);
}

static void on_error(void *arg, err_t error) {
    (void)error;
    if (arg != NULL)
        give_up_place(arg);
}

/* Gives a connection a place. Answers whether there was one, and memory. */
static int take_place(struct tcp_pcb *connection, const struct service *service) {
    struct session *session = places_taken < PLACES ? session_start(service, connection) : NULL;
    if (session == NULL)
        return 0;
    places_taken++;
    tcp_arg(connection, session);
    tcp_recv(connection, on_receive);
    tcp_sent(connection, on_sent);
    tcp_poll(connection, on_poll, 4);
    tcp_err(connection, on_error);
    return 1;
}

/* The line. */

static void leave_line(const struct tcp_pcb *connection) {
    unsigned at = 0;
    while (line[at].connection != connection)
        at++;
    in_line--;
    memmove(&line[at], &line[at + 1], (in_line - at) * sizeof line[0]);
}

/* What it sends first stays with lwIP, which offers it again; one that ends leaves. */
static err_t on_receive_in_line(void *arg, struct tcp_pcb *connection, struct pbuf *data, err_t error) {
    (void)arg, (void)error;
    if (data != NULL)
        return ERR_MEM;
    leave_line(connection);
    tcp_backlog_accepted(connection);
    tcp_recv(connection, NULL);
    tcp_err(connection, NULL);
    if (tcp_close(connection) == ERR_OK)
        return ERR_OK;
    tcp_abort(connection);
    return ERR_ABRT;
}

static void on_error_in_line(void *connection, err_t error) {
    (void)error;
    leave_line(connection);
}

static err_t stand_in_line(struct tcp_pcb *connection, const struct service *service) {
    if (in_line == sizeof line / sizeof line[0])
        return ERR_MEM;
    line[in_line].connection = connection;
    line[in_line++].service = service;
    tcp_backlog_delayed(connection);
    tcp_arg(connection, connection);
    tcp_recv(connection, on_receive_in_line);
    tcp_err(connection, on_error_in_line);
    return ERR_OK;
}

static err_t on_accept(void *arg, struct tcp_pcb *connection, err_t error) {
    if (error != ERR_OK || connection == NULL)
        return ERR_VAL;
    tcp_nagle_disable(connection);
    ip_set_option(connection, SOF_KEEPALIVE);
    connection->keep_idle = KEEP_IDLE;
    connection->keep_intvl = KEEP_EVERY;
    connection->keep_cnt = KEEP_COUNT;
    return in_line == 0 && take_place(connection, arg) ? ERR_OK : stand_in_line(connection, arg);
}

void connections_poll(void) {
    while (in_line > 0) {
        struct tcp_pcb *connection = line[0].connection;
        if (!take_place(connection, line[0].service))
            return;
        leave_line(connection);
        tcp_backlog_accepted(connection);
        if (connection->refused_data != NULL)
            tcp_process_refused_data(connection);
    }
}

static void listen(const struct service *service) {
    struct tcp_pcb *connection = tcp_new();
    tcp_bind(connection, IP_ADDR_ANY, service->port);
    connection = tcp_listen_with_backlog(connection, BACKLOG);
    tcp_arg(connection, (void *)(uintptr_t)service);
    tcp_accept(connection, on_accept);
}

void connections_start(void) {
    listen(&http);
    listen(&postgres);
}
