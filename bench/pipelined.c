/* How long an epoch of two nodes takes by the clock where both work at once: the primary runs the guest, cuts, and spells its next epochs
 * while the standby takes in the ones before, at most four of them pending. Or an epoch of one `remus live`, whose lines come ahead as well.
 *
 *     cc -O2 -pthread bench/pipelined.c -o /tmp/pipelined
 *     /tmp/pipelined REMUS nodes|live PAGES FIRST STEPS EPOCHS PART < GUEST
 *
 * The guest is written as in a `boot` line, and has so many pages. It makes so many steps first, and then so many in each epoch; a text goes
 * over in parts of so many bytes. The clock runs from one acknowledgement to another, so many epochs later, and there are epochs under way at
 * either one. Printed are microseconds an epoch: the clock's; then the processor time of the primary, or of `live`, of the standby, and of
 * this process, as the kernel charges it (/proc/PID/schedstat).
 *
 * Lines are sent ahead: an epoch's `step`, `cut` and all its `rawtext` lines at once, as soon as fewer than four are pending. One thread
 * hands on what the primary answers: bytes go from its pipe to the standby's by splice, behind a line `rawpiece`. Another one reads what the standby
 * answers, and acknowledges in order. Each answer is compared with the one that must come. */
#define _GNU_SOURCE
#include <fcntl.h>
#include <pthread.h>
#include <semaphore.h>
#include <stdarg.h>
#include <stdio.h>
#include <stdlib.h>
#include <string.h>
#include <sys/wait.h>
#include <time.h>
#include <unistd.h>

/* BEFORE and AFTER are the epochs before the clock starts and after it has stopped. Four epochs have fewer answers than QUEUE. */
enum { PIPE = 1 << 20, READ = 1 << 16, SHORT = 128, PENDING = 4, BEFORE = 6, AFTER = 6, QUEUE = 1 << 16 };

typedef struct {
    int pid, to, from;
    char bytes[READ];
    size_t next, end;
} Node;

/* What the primary answers next: a line, and how many bytes of a text follow it, which may end with these. An empty line is the end. */
typedef struct {
    char line[SHORT];
    size_t bytes;
    int ends;
} Answer;

/* The primary, or `live`; and the standby. */
static Node first, second;
static size_t steps_before, steps, part, length;
static int epochs;

static void fail(const char *what) {
    perror(what);
    exit(1);
}

static size_t least(size_t a, size_t b) { return a < b ? a : b; }

static void put(int to, const char *bytes, size_t count) {
    while (count > 0) {
        ssize_t written = write(to, bytes, count);
        if (written <= 0)
            fail("write");
        bytes += written, count -= written;
    }
}

static void get(int from, char *bytes, size_t count) {
    while (count > 0) {
        ssize_t came = read(from, bytes, count);
        if (came <= 0)
            fail("read");
        bytes += came, count -= came;
    }
}

static void compare(const char *came, const char *wanted) {
    if (strcmp(came, wanted) != 0) {
        fprintf(stderr, "%.80s came, not %s\n", came, wanted);
        exit(1);
    }
}

static void start(Node *node, const char *program, const char *word) {
    int in[2], out[2];
    if (pipe2(in, O_CLOEXEC) != 0 || pipe2(out, O_CLOEXEC) != 0)
        fail("pipe");
    fcntl(in[1], F_SETPIPE_SZ, PIPE);
    fcntl(out[1], F_SETPIPE_SZ, PIPE);
    node->pid = fork();
    if (node->pid == 0) {
        dup2(in[0], 0);
        dup2(out[1], 1);
        execl(program, program, word, NULL);
        fail(program);
    }
    close(in[0]);
    close(out[1]);
    node->to = in[1], node->from = out[0];
}

static void stop(Node *node) {
    if (node->pid == 0)
        return;
    close(node->to);
    waitpid(node->pid, NULL, 0);
}

__attribute__((format(printf, 2, 3))) static void tell(Node *node, const char *form, ...) {
    char line[SHORT];
    va_list given;
    va_start(given, form);
    put(node->to, line, vsnprintf(line, sizeof line, form, given));
    va_end(given);
}

/* The next line that a node answers, which is short. */
static char *answered(Node *node) {
    for (;;) {
        char *line = node->bytes + node->next, *end = memchr(line, '\n', node->end - node->next);
        if (end != NULL) {
            *end = 0;
            node->next = end + 1 - node->bytes;
            return line;
        }
        node->end -= node->next, node->next = 0;
        memmove(node->bytes, line, node->end);
        ssize_t came = read(node->from, node->bytes + node->end, READ - node->end);
        if (came <= 0)
            fail("read");
        node->end += came;
    }
}

__attribute__((format(printf, 2, 3))) static void expect(Node *node, const char *form, ...) {
    char wanted[SHORT];
    va_list given;
    va_start(given, form);
    vsnprintf(wanted, sizeof wanted, form, given);
    va_end(given);
    compare(answered(node), wanted);
}

/* The number at the end of the next line that a node answers. */
static size_t number_answered(Node *node) {
    char *line = answered(node), *space = strrchr(line, ' ');
    if (space == NULL)
        compare(line, "a number");
    return strtoull(space, NULL, 10);
}

static double microseconds(clockid_t clock) {
    struct timespec time;
    clock_gettime(clock, &time);
    return time.tv_sec * 1e6 + time.tv_nsec / 1e3;
}

static double processor(const Node *node) {
    char name[SHORT];
    unsigned long long nanoseconds;
    if (node->pid == 0)
        return 0;
    snprintf(name, sizeof name, "/proc/%d/schedstat", node->pid);
    FILE *file = fopen(name, "r");
    if (file == NULL || fscanf(file, "%llu", &nanoseconds) != 1)
        fail(name);
    fclose(file);
    return nanoseconds / 1e3;
}

/* The times at the two acknowledgements: the clock's, and the processes'. */
static double began[4], ended[4];

static void acknowledged(int number) {
    double *at = number == BEFORE ? began : number == BEFORE + epochs ? ended : NULL;
    if (at == NULL)
        return;
    at[0] = microseconds(CLOCK_MONOTONIC);
    at[1] = processor(&first);
    at[2] = processor(&second);
    at[3] = microseconds(CLOCK_PROCESS_CPUTIME_ID);
}

/* What the primary is still to answer, in the order of its lines, which two threads send. */
static pthread_mutex_t lines = PTHREAD_MUTEX_INITIALIZER;
static sem_t awaited, free_places;
static Answer queue[QUEUE];
static size_t queued;

__attribute__((format(printf, 3, 4))) static void await(size_t bytes, int ends, const char *form, ...) {
    Answer *answer = &queue[queued++ % QUEUE];
    va_list given;
    va_start(given, form);
    vsnprintf(answer->line, sizeof answer->line, form, given);
    va_end(given);
    answer->bytes = bytes, answer->ends = ends;
    sem_post(&awaited);
}

/* Sends an epoch's lines, but for its acknowledgement. */
static void send_epoch(int number) {
    char *text;
    size_t size;
    FILE *out = open_memstream(&text, &size);
    pthread_mutex_lock(&lines);
    fprintf(out, "step %zu\ncut\n", steps);
    await(0, 0, "steps %zu outbox 0 frames 0\n", steps_before + steps * number);
    await(0, 0, "cut 2 %d %zu\n", number, length);
    for (size_t at = 0; at < length; at += part) {
        size_t count = least(part, length - at);
        fprintf(out, "rawtext %d %zu %zu\n", number, at, count);
        await(count, at + count == length, "rawtext %zu\n", count);
    }
    fclose(out);
    put(first.to, text, size);
    pthread_mutex_unlock(&lines);
    free(text);
}

/* Hands the primary's answers on. */
static void *carry(void *unused) {
    for (size_t next = 0;; next++) {
        char came[SHORT] = {0};
        sem_wait(&awaited);
        Answer *answer = &queue[next % QUEUE];
        if (answer->line[0] == 0)
            return unused;
        get(first.from, came, strlen(answer->line));
        compare(came, answer->line);
        if (answer->bytes == 0)
            continue;
        tell(&second, "rawpiece %zu\n", answer->bytes);
        for (size_t left = answer->bytes + strlen("\n"); left > 0;) {
            ssize_t moved = splice(first.from, NULL, second.to, NULL, left, 0);
            if (moved <= 0)
                fail("splice");
            left -= moved;
        }
        if (answer->ends)
            put(second.to, "commit\n", strlen("commit\n"));
    }
    return unused;
}

/* What the standby answers to a text and `commit`. */
static void expect_commit(int number) {
    for (size_t at = 0; at + part < length; at += part)
        expect(&second, "taken %zu", part);
    expect(&second, "whole 2 %d", number);
    expect(&second, "committed 2 %d", number);
}

/* Reads the standby's answers, and acknowledges. */
static void *hear(void *unused) {
    for (int number = 2; number <= BEFORE + epochs + AFTER; number++) {
        expect_commit(number);
        pthread_mutex_lock(&lines);
        await(0, 0, "acked 2 %d frames 0\n", number);
        tell(&first, "ack 2 %d\n", number);
        pthread_mutex_unlock(&lines);
        acknowledged(number);
        sem_post(&free_places);
    }
    return unused;
}

/* A line, which is the only one under way: how many bytes it has. */
static size_t get_line(int from, char *line) {
    size_t count = 0;
    do {
        ssize_t came = read(from, line + count, PIPE);
        if (came <= 0)
            fail("read");
        count += came;
    } while (line[count - 1] != '\n');
    return count;
}

/* A checkpoint goes over with nothing else under way, until the standby has the whole of it. The primary's next answer says how long its
 * text is, or, of the full checkpoint, how long at most. */
static void carry_alone(int number) {
    char *text = malloc(2 * part + SHORT + PIPE), *said, wanted[SHORT];
    size_t at = 0;
    length = number_answered(&first);
    do {
        tell(&first, "text %d %zu %zu\n", number, at, part);
        size_t bytes = get_line(first.from, text), word = strlen("text ");
        tell(&second, "piece ");
        put(second.to, text + word, bytes - word);
        said = answered(&second);
        at += part;
    } while (strncmp(said, "taken ", strlen("taken ")) == 0);
    free(text);
    snprintf(wanted, sizeof wanted, "whole 2 %d", number);
    compare(said, wanted);
    tell(&second, "commit\n");
    expect(&second, "committed 2 %d", number);
    tell(&first, "ack 2 %d\n", number);
    expect(&first, "acked 2 %d frames 0", number);
}

static void play_nodes(const char *program, int pages, const char *guest) {
    pthread_t carrier, hearer;
    start(&first, program, "node");
    start(&second, program, "node");
    put(first.to, guest, strlen(guest));
    tell(&first, "step %zu\nprotect\n", steps_before);
    tell(&second, "standby %d 64 2\n", pages);
    expect(&first, "booted");
    expect(&first, "steps %zu outbox 0 frames 0", steps_before);
    expect(&second, "waiting 2");
    carry_alone(0);
    tell(&first, "step %zu\ncut\n", steps);
    expect(&first, "steps %zu outbox 0 frames 0", steps_before + steps);
    carry_alone(1);
    sem_init(&awaited, 0, 0);
    sem_init(&free_places, 0, PENDING);
    if (pthread_create(&carrier, NULL, carry, NULL) != 0 || pthread_create(&hearer, NULL, hear, NULL) != 0)
        fail("a thread");
    for (int number = 2; number <= BEFORE + epochs + AFTER; number++) {
        sem_wait(&free_places);
        send_epoch(number);
    }
    pthread_join(hearer, NULL);
    await(0, 0, "%s", "");
    pthread_join(carrier, NULL);
}

/* Of `live` as many epochs' lines are under way. Its checkpoints count from 1, and its packets from 0. */
static void play_live(const char *program, const char *guest) {
    int sent = 0, last = BEFORE + epochs + AFTER;
    start(&first, program, "live");
    put(first.to, guest, strlen(guest));
    expect(&first, "booted");
    for (int packet = 0; packet <= last; packet++) {
        for (; sent <= last && sent < packet + PENDING; sent++)
            tell(&first, "step %zu\ncut\nsend\nbackup %d\nack %d\n", sent == 0 ? steps_before : steps, sent, sent);
        expect(&first, "steps %zu", steps_before + steps * packet);
        expect(&first, "cut 1 %d", packet + 1);
        expect(&first, "sent 1");
        expect(&first, "committed 1 %d", packet + 1);
        expect(&first, "acked 1 %d landed 0", packet + 1);
        acknowledged(packet);
    }
}

/* The `boot` line of the guest on standard input. */
static char *boot_line(int pages) {
    char *line;
    size_t size;
    FILE *out = open_memstream(&line, &size);
    fprintf(out, "boot %d 64 1 ", pages);
    for (int byte; (byte = getchar()) != EOF && byte != '\n';)
        fputc(byte, out);
    fputc('\n', out);
    fclose(out);
    return line;
}

int main(int words, char **word) {
    if (words != 8) {
        fprintf(stderr, "usage: pipelined REMUS nodes|live PAGES FIRST STEPS EPOCHS PART < GUEST\n");
        return 2;
    }
    int pages = atoi(word[3]);
    steps_before = strtoull(word[4], NULL, 10), steps = strtoull(word[5], NULL, 10);
    epochs = atoi(word[6]), part = strtoull(word[7], NULL, 10);
    char *guest = boot_line(pages);
    if (strcmp(word[2], "live") == 0)
        play_live(word[1], guest);
    else
        play_nodes(word[1], pages, guest);
    stop(&first);
    stop(&second);
    for (int at = 0; at < 4; at++)
        printf("%.2f%c", (ended[at] - began[at]) / epochs, at < 3 ? ' ' : '\n');
    return 0;
}
