/* What two processes spend that carry bytes as bench/nodes has two nodes carry them, and do nothing else: each part is asked for by a short
 * line, spelled as hex digits into a pipe, moved on by splice, read and turned into bytes again, and answered by a short line.
 *
 *     gcc -O2 bench/carrying.c -o /tmp/carrying && /tmp/carrying 263448 65536 300
 *
 * The words are how many bytes an epoch has, how many a part, and how many epochs. It prints the processor time of each side an epoch, as the
 * kernel charges it (/proc/PID/schedstat). bench/nodes' figures beside it show what is left to a node's own work. */
#define _GNU_SOURCE
#include <emmintrin.h>
#include <fcntl.h>
#include <signal.h>
#include <stdint.h>
#include <stdio.h>
#include <stdlib.h>
#include <string.h>
#include <unistd.h>

enum { PIPE = 1 << 20, CHUNK = 16384, READ = 65536, FIRST = 20, SHORT = 64 };

static size_t least(size_t a, size_t b) { return a < b ? a : b; }

static void fail(const char *what) {
    perror(what);
    exit(1);
}

static void make_pipe(int ends[2]) {
    if (pipe(ends) != 0)
        fail("pipe");
    fcntl(ends[1], F_SETPIPE_SZ, PIPE);
}

static void put(int to, const void *bytes, size_t count) {
    if (write(to, bytes, count) != (ssize_t)count)
        fail("write");
}

/* The digits of bytes, 16 at a time. */
static void spell(const uint8_t *bytes, uint8_t *digits, size_t count) {
    const __m128i low = _mm_set1_epi8(15), zero = _mm_set1_epi8('0'), nine = _mm_set1_epi8(9), letters = _mm_set1_epi8(39);
    for (size_t at = 0; at < count; at += 16) {
        __m128i block = _mm_loadu_si128((const void *)(bytes + at));
        __m128i first = _mm_and_si128(_mm_srli_epi16(block, 4), low), second = _mm_and_si128(block, low);
        __m128i halves[2] = {_mm_unpacklo_epi8(first, second), _mm_unpackhi_epi8(first, second)};
        for (int half = 0; half < 2; half++) {
            __m128i above = _mm_and_si128(_mm_cmpgt_epi8(halves[half], nine), letters);
            _mm_storeu_si128((void *)(digits + 2 * at + 16 * half), _mm_add_epi8(_mm_add_epi8(halves[half], zero), above));
        }
    }
}

/* The bytes of digits, 32 at a time. */
static void read_digits(const uint8_t *digits, uint8_t *bytes, size_t count) {
    for (size_t at = 0; at < count; at += 16) {
        __m128i halves[2];
        for (int half = 0; half < 2; half++) {
            __m128i from_zero = _mm_sub_epi8(_mm_loadu_si128((const void *)(digits + 2 * at + 16 * half)), _mm_set1_epi8('0'));
            __m128i letters = _mm_and_si128(_mm_cmpgt_epi8(from_zero, _mm_set1_epi8(9)), _mm_set1_epi8(39));
            __m128i numbers = _mm_sub_epi8(from_zero, letters);
            if (_mm_movemask_epi8(_mm_cmpgt_epi8(numbers, _mm_set1_epi8(15))))
                exit(2);
            __m128i first = _mm_slli_epi16(_mm_and_si128(numbers, _mm_set1_epi16(255)), 4);
            halves[half] = _mm_or_si128(first, _mm_srli_epi16(numbers, 8));
        }
        _mm_storeu_si128((void *)(bytes + at), _mm_packus_epi16(halves[0], halves[1]));
    }
}

/* Writes the part that each line asks for. */
static void primary(int asked, int out, size_t count, size_t part) {
    uint8_t *bytes = calloc(count + 16, 1), *piece = malloc(2 * CHUNK + 16);
    char line[SHORT];
    while (read(asked, line, sizeof line) > 0) {
        size_t from = strtoul(line, NULL, 10), left = least(part, count - from), at = 5;
        memcpy(piece, "text ", at);
        for (; left > CHUNK; from += CHUNK, left -= CHUNK, at = 0) {
            spell(bytes + from, piece + at, CHUNK);
            put(out, piece, at + 2 * CHUNK);
        }
        spell(bytes + from, piece + at, left);
        piece[at + 2 * left] = '\n';
        put(out, piece, at + 2 * left + 1);
    }
    exit(0);
}

/* Reads each part, and says that it is taken. */
static void standby(int in, int taken, size_t count, size_t part) {
    uint8_t *buffer = malloc(READ), *line = malloc(2 * part + SHORT), *bytes = malloc(count + part + 16);
    size_t known = 0, length = 0;
    for (ssize_t came; (came = read(in, buffer, READ)) > 0;) {
        memcpy(line + length, buffer, came);
        length += came;
        if (line[length - 1] != '\n')
            continue;
        size_t digits = length - strlen("piece \n");
        read_digits(line + 6, bytes + known, digits / 2);
        known = known + digits / 2 < count ? known + digits / 2 : 0;
        length = 0;
        put(taken, "taken\n", 6);
    }
    exit(0);
}

static double spent(int process) {
    char name[SHORT];
    unsigned long long nanoseconds;
    snprintf(name, sizeof name, "/proc/%d/schedstat", process);
    FILE *file = fopen(name, "r");
    if (file == NULL || fscanf(file, "%llu", &nanoseconds) != 1)
        fail(name);
    fclose(file);
    return nanoseconds / 1e3;
}

int main(int words, char **word) {
    if (words != 4) {
        fprintf(stderr, "usage: carrying BYTES PART EPOCHS\n");
        return 2;
    }
    size_t count = strtoul(word[1], NULL, 10), part = strtoul(word[2], NULL, 10);
    int epochs = atoi(word[3]), asked[2], text[2], between[2], pieces[2], taken[2];
    for (int *ends[] = {asked, text, between, pieces, taken}, **end = ends; end < ends + 5; end++)
        make_pipe(*end);
    int first = fork();
    if (first == 0)
        primary(asked[0], text[1], count, part);
    int second = fork();
    if (second == 0)
        standby(pieces[0], taken[1], count, part);
    double before[2] = {0, 0};
    for (int epoch = 0; epoch < FIRST + epochs; epoch++) {
        if (epoch == FIRST)
            before[0] = spent(first), before[1] = spent(second);
        for (size_t from = 0; from < count; from += part) {
            char line[SHORT];
            put(asked[1], line, snprintf(line, sizeof line, "%zu\n", from));
            if (read(text[0], line, 5) != 5)
                fail("read");
            put(between[1], "piece ", 6);
            for (size_t left = 2 * least(part, count - from) + 1, waiting = 6; left > 0 || waiting > 0;) {
                ssize_t came = left == 0 ? 0 : splice(text[0], NULL, between[1], NULL, left, 0);
                waiting += came, left -= came;
                waiting -= splice(between[0], NULL, pieces[1], NULL, waiting, 0);
            }
            if (read(taken[0], line, sizeof line) <= 0)
                fail("read");
        }
    }
    printf("%zu bytes in parts of %zu: primary %.1f us and standby %.1f us an epoch\n", count, part, (spent(first) - before[0]) / epochs,
           (spent(second) - before[1]) / epochs);
    kill(first, SIGKILL);
    kill(second, SIGKILL);
    return 0;
}
