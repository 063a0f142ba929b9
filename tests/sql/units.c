/* Parts of guests/sql, one call for each line of standard input: its name, and what it gets, bytes in hex. */
#include <stdio.h>
#include <stdlib.h>
#include <string.h>

#include "../../guests/sql/cksum.h"
#include "../../guests/sql/digest.h"
#include "../../guests/sql/locks.h"
#include "../../guests/sql/request.h"
#include "../../guests/sql/statement.h"
#include "../../guests/sql/text.h"

#define MOST 65536
#define CONNECTIONS 4

static uint8_t one[MOST], other[MOST];

/* Reads hex, and puts a zero behind it. Answers how many bytes there are. */
static uint32_t bytes_of(const char *hex, uint8_t *to) {
    uint32_t count = 0;
    unsigned byte;
    for (; hex != NULL && sscanf(hex, "%2x", &byte) == 1; hex += 2)
        to[count++] = (uint8_t)byte;
    to[count] = 0;
    return count;
}

static void print(const uint8_t *bytes, uint32_t count) {
    for (uint32_t i = 0; i < count; i++)
        printf("%02x", bytes[i]);
    printf("\n");
}

static void sums(char *words[]) {
    uint32_t count = bytes_of(words[0], one);
    printf("%u\n", cksum_end(cksum(0, one, count), count));
}

static void texts(const char *name, char *words[]) {
    struct text text = {.most = MOST};
    if (strcmp(name, "number") == 0) {
        add_number(&text, strtoll(words[0], NULL, 10));
        printf("%.*s\n", (int)text.length, text.bytes);
    } else {
        uint32_t count = bytes_of(words[0], one);
        printf("%d\n", is_utf8((const char *)one + atoi(words[1]), count - (uint32_t)atoi(words[1])));
    }
    text_drop(&text);
}

/* All rounds, some at a time. */
static void stretched(const void *password, uint32_t length, const void *salt, uint32_t salt_length, int rounds, uint8_t answer[DIGEST]) {
    struct stretching stretching;
    stretch_start(&stretching, password, length, salt, salt_length, rounds);
    while (!stretch(&stretching, 7))
        ;
    memcpy(answer, stretching.answer, DIGEST);
}

static void digests(const char *name, char *words[]) {
    uint8_t answer[DIGEST];
    uint32_t count = bytes_of(words[0], one), more = bytes_of(words[1], other);
    if (strcmp(name, "sha") == 0)
        digest_of(one, count, answer);
    else if (strcmp(name, "hmac") == 0)
        keyed_digest(one, count, other, more, answer);
    else
        stretched(one, count, other, more, atoi(words[2]), answer);
    print(answer, DIGEST);
}

static void base64s(const char *name, char *words[]) {
    uint8_t back[MOST];
    char text[MOST];
    uint32_t count = bytes_of(words[0], one);
    if (strcmp(name, "base64") == 0) {
        to_base64(one, count, text);
        printf("%s\n", text);
        return;
    }
    int length = from_base64((const char *)one, count, back, 300);
    if (length < 0)
        printf("bad\n");
    else
        print(back, (uint32_t)length);
}

static void statements(char *words[]) {
    struct statement statement;
    bytes_of(words[0], one);
    read_statement((const char *)one, &statement);
    printf("%d|%s|%d|%s|%s|%d|%d\n", (int)statement.kind, statement.tag, statement.is_counted, statement.name,
           statement.sql == NULL ? "" : statement.sql, (int)(statement.end - (const char *)one), is_blank((const char *)one));
}

static void requests(char *words[]) {
    struct request request;
    uint32_t count = bytes_of(words[0], one), head = head_of((const char *)one, count);
    int status = head == 0 ? -1 : read_request((const char *)one, head, &request);
    if (status != 0) {
        printf("%d\n", status);
        return;
    }
    char value[MOST] = "";
    int32_t length = request.asked == NULL ? -1 : value_of(request.asked, request.asked_length, "q", value);
    printf("%u %d %s %d%.*s|%u %d%d%d%d%d %s\n", head, (int)request.method, request.path, length, length < 0 ? 0 : length, value,
           request.length, request.is_kept, request.is_expecting, request.is_form, request.is_json, request.is_strange, request.password);
}

static void locks(const char *name, char *words[]) {
    static struct lock plain[CONNECTIONS];
    static struct log_locks log[CONNECTIONS];
    int numbers[4];
    for (int i = 0; i < 4; i++)
        numbers[i] = words[i] == NULL ? 0 : atoi(words[i]);
    uint32_t before = lock_lowered();
    int answer = 1;
    if (strcmp(name, "raise") == 0)
        answer = lock_raise(&plain[numbers[0]], numbers[1]);
    else if (strcmp(name, "lower") == 0)
        lock_lower(&plain[numbers[0]], numbers[1]);
    else if (strcmp(name, "take") == 0)
        answer = log_lock(&log[numbers[0]], numbers[1], numbers[2], numbers[3]);
    else
        log_unlock(&log[numbers[0]], numbers[1], numbers[2]);
    printf("%d %d %d %d %x %x\n", answer, plain[numbers[0]].level, lock_is_reserved(), lock_lowered() != before, log[numbers[0]].read,
           log[numbers[0]].written);
}

int main(void) {
    static char line[4 * MOST];
    while (fgets(line, sizeof line, stdin) != NULL) {
        char *words[8] = {NULL}, *name = strtok(line, " \n");
        for (int i = 0; i < 7 && (i == 0 || words[i - 1] != NULL); i++)
            words[i] = strtok(NULL, " \n");
        if (strcmp(name, "statement") == 0)
            statements(words);
        else if (strcmp(name, "request") == 0)
            requests(words);
        else if (strcmp(name, "number") == 0 || strcmp(name, "utf8") == 0)
            texts(name, words);
        else if (strcmp(name, "cksum") == 0)
            sums(words);
        else if (strstr(name, "base64") != NULL)
            base64s(name, words);
        else if (strcmp(name, "sha") == 0 || strcmp(name, "hmac") == 0 || strcmp(name, "stretch") == 0)
            digests(name, words);
        else
            locks(name, words);
        fflush(stdout);
    }
    return 0;
}
