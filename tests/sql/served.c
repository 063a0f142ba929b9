/* The sessions of guests/sql on this machine, over its own sockets in place of lwIP, and its own SQLite:

     served FILE [REFUSED [BYTES]]    the database's disk is FILE. Of REFUSED allocations in a row, each 97th is refused: there is no
                                      memory. Where BYTES isn't 0 there are no more in all, and each piece has a power of two of them, as
                                      the guest has its memory

   It prints the ports of PostgreSQL's protocol and of HTTP, which it serves on this machine's loopback until its input ends. */
#include <arpa/inet.h>
#include <errno.h>
#include <fcntl.h>
#include <poll.h>
#include <stdio.h>
#include <stdlib.h>
#include <string.h>
#include <sys/socket.h>
#include <unistd.h>

#include "../../guests/sql/database.h"
#include "../../guests/sql/door.h"
#include "../../guests/sql/http.h"
#include "../../guests/sql/log.h"
#include "../../guests/sql/postgres.h"
#include "disk.h"

#define MOST 64
#define EVERY 97

/* So much may come while a session takes nothing, as TCP has it. */
#define WINDOW 65536

static struct session *sessions[MOST];
static unsigned refused;
static size_t most, taken; /* bytes of memory; of `most` 0: as many as there are */

/* Memory of SQLite's, some of which is refused. */

static int is_refused(void) {
    static unsigned turn;
    return refused > 0 && ++turn % EVERY == 0 && refused-- > 0;
}

static int size_of(void *memory) { return memory == NULL ? 0 : (int)((uint64_t *)memory)[-2]; }

static size_t size_for(int count) {
    size_t size = 32;
    while (size < (size_t)count)
        size *= 2;
    return most > 0 ? size : (size_t)count;
}

static void *get(int count) {
    size_t size = size_for(count);
    uint64_t *memory = is_refused() || (most > 0 && taken + size > most) ? NULL : malloc(size + 16);
    if (memory == NULL)
        return NULL;
    taken += size;
    memory[0] = size;
    return memory + 2;
}

static void give(void *memory) {
    if (memory == NULL)
        return;
    taken -= (size_t)size_of(memory);
    free((uint64_t *)memory - 2);
}

/* A piece that becomes smaller stays as it is. */
static void *change(void *memory, int count) {
    if (most > 0 && count <= size_of(memory))
        return memory;
    void *more = get(count);
    if (more == NULL)
        return NULL;
    memcpy(more, memory, (size_t)(size_of(memory) < count ? size_of(memory) : count));
    give(memory);
    return more;
}

static int rounded(int count) { return (count + 7) & ~7; }

static int start(void *data) {
    (void)data;
    return SQLITE_OK;
}

static void end(void *data) { (void)data; }

/* Connections. */

static int descriptor_of(const struct session *session) { return (int)(intptr_t)session->connection; }

static void forget(int place) {
    close(descriptor_of(sessions[place]));
    session_drop(sessions[place]);
    sessions[place] = NULL;
}

/* Sends what a socket takes. Answers whether the connection is there still. */
static int send_to(struct session *session) {
    uint32_t sendable = session_sendable(session);
    while (session->sent < sendable) {
        ssize_t count = send(descriptor_of(session), session->out.bytes + session->sent, sendable - session->sent, MSG_NOSIGNAL);
        if (count < 0)
            return errno == EAGAIN;
        session->sent += (uint32_t)count;
    }
    return !session_is_sent(session);
}

void carry(struct session *session) {
    for (int i = 0; i < MOST; i++)
        if (sessions[i] == session && !send_to(session))
            forget(i);
}

static void receive(int place) {
    char bytes[1500];
    struct session *session = sessions[place];
    ssize_t count = recv(descriptor_of(session), bytes, sizeof bytes, 0);
    if (count < 0 && errno == EAGAIN)
        return;
    if (count < 0)
        session->is_ending = 1;
    if (count <= 0)
        session->service->end_of_input(session);
    else
        session_take(session, bytes, (uint32_t)count);
    carry(session);
}

static int listening(const struct service *service) {
    struct sockaddr_in address = {.sin_family = AF_INET, .sin_addr.s_addr = htonl(INADDR_LOOPBACK)};
    socklen_t length = sizeof address;
    int descriptor = socket(AF_INET, SOCK_STREAM, 0);
    if (bind(descriptor, (struct sockaddr *)&address, length) != 0 || listen(descriptor, MOST) != 0
        || getsockname(descriptor, (struct sockaddr *)&address, &length) != 0)
        exit(2);
    printf("%u %u\n", service->port, ntohs(address.sin_port));
    return descriptor;
}

static void accept_one(int listener, const struct service *service) {
    for (int i = 0; i < MOST; i++)
        if (sessions[i] == NULL) {
            int descriptor = accept(listener, NULL, NULL);
            fcntl(descriptor, F_SETFL, O_NONBLOCK);
            sessions[i] = session_start(service, (void *)(intptr_t)descriptor);
            if (sessions[i] == NULL)
                close(descriptor);
            return;
        }
}

static void serve(const int listeners[2]) {
    const struct service *services[2] = {&postgres, &http};
    struct pollfd watched[MOST + 3];
    int places[MOST + 3], is_at_work = 0;
    for (;;) {
        int count = 0;
        watched[count++] = (struct pollfd){STDIN_FILENO, POLLIN, 0};
        for (int i = 0; i < 2; i++)
            watched[count++] = (struct pollfd){listeners[i], POLLIN, 0};
        for (int i = 0; i < MOST; i++)
            if (sessions[i] != NULL) {
                int is_busy = session_is_busy(sessions[i]) || sessions[i]->is_held;
                int is_stopped = is_busy && sessions[i]->in.length + sessions[i]->later.length >= WINDOW;
                short events = (is_stopped ? 0 : POLLIN) | (sessions[i]->sent < session_sendable(sessions[i]) ? POLLOUT : 0);
                places[count] = i;
                watched[count++] = (struct pollfd){descriptor_of(sessions[i]), events, 0};
            }
        poll(watched, (nfds_t)count, is_at_work ? 0 : 1);
        if (watched[0].revents != 0)
            return;
        for (int i = 3; i < count; i++) {
            struct session *session = sessions[places[i]];
            if (session != NULL && (watched[i].revents & POLLOUT))
                carry(session);
            if (sessions[places[i]] != NULL && sessions[places[i]] == session && (watched[i].revents & (POLLIN | POLLHUP | POLLERR)))
                receive(places[i]);
        }
        for (int i = 0; i < 2; i++)
            if (watched[1 + i].revents != 0)
                accept_one(listeners[i], services[i]);
        is_at_work = sessions_poll();
        door_poll();
    }
}

int main(int count, char **words) {
    static sqlite3_mem_methods memory = {get, give, change, size_of, rounded, start, end, NULL};
    if (count < 2)
        return 2;
    medium_make(words[1]);
    sqlite3_config(SQLITE_CONFIG_MALLOC, &memory);
    if (log_start() != SQLITE_OK || sqlite3_initialize() != SQLITE_OK || vfs_register() != SQLITE_OK || !vfs_start())
        return 2;
    database_start();
    int listeners[2] = {listening(&postgres), listening(&http)};
    fflush(stdout);
    refused = count > 2 ? (unsigned)atoi(words[2]) : 0;
    most = count > 3 ? (size_t)atoi(words[3]) : 0;
    serve(listeners);
    return 0;
}
