#include "scram.h"

#include <string.h>

#include "clock.h"
#include "password.h"

#define MOST_MESSAGE 1024
#define MOST_HEAD 32
#define NONCE 18 /* bytes */

static const char *end_of(const char *message, uint32_t length) { return message + length; }

/* The next attribute's value, as in 'r=VALUE,': after its letter. Answers where it ends, or NULL where there is none. */
static const char *attribute(const char *at, const char *end, char letter, const char **value) {
    if (end - at < 2 || at[0] != letter || at[1] != '=')
        return NULL;
    *value = at + 2;
    const char *comma = memchr(at, ',', (size_t)(end - at));
    return comma == NULL ? end : comma;
}

/* Numbers of the server's own: nobody knows the next ones without its key. */
static void add_nonce(struct text *nonce, uint32_t number) {
    struct {
        uint64_t steps, number;
        uint8_t client[DIGEST];
    } about = {.steps = clock_steps(), .number = number};
    uint8_t bytes[DIGEST];
    char text[4 * NONCE / 3 + 1];
    digest_of(nonce->bytes, nonce->length, about.client);
    keyed_digest(password.server_key, DIGEST, &about, sizeof about, bytes);
    to_base64(bytes, NONCE, text);
    add(nonce, text);
}

int scram_begin(struct scram *scram, const char *message, uint32_t length, uint32_t number, struct text *answer) {
    const char *end = end_of(message, length), *name, *nonce, *at;
    scram->said.most = scram->nonce.most = 4 * MOST_MESSAGE;
    if (length > MOST_MESSAGE || length < 3 || (message[0] != 'n' && message[0] != 'y') || message[1] != ',')
        return 0;
    at = memchr(message + 2, ',', length - 2);
    if (at == NULL || ++at - message > MOST_HEAD)
        return 0;
    to_base64((const uint8_t *)message, (uint32_t)(at - message), scram->head);
    const char *bare = at;
    at = attribute(bare, end, 'n', &name);
    if (at == NULL || at == end || (at = attribute(at + 1, end, 'r', &nonce)) == NULL || at == nonce)
        return 0;
    add_bytes(&scram->nonce, nonce, (uint32_t)(at - nonce));
    add_nonce(&scram->nonce, number);
    uint32_t begun = answer->length;
    add(answer, "r=");
    add_bytes(answer, scram->nonce.bytes, scram->nonce.length);
    add(answer, ",s=");
    add(answer, password.salt);
    add(answer, ",i=");
    add_number(answer, password.rounds);
    add_bytes(&scram->said, bare, (uint32_t)(end - bare));
    add(&scram->said, ",");
    add_bytes(&scram->said, answer->bytes + begun, answer->length - begun);
    return !scram->said.is_full && !scram->nonce.is_full && !answer->is_full;
}

/* Whether the proof is that of one who has the password's key. */
static int is_proved(const struct text *said, const char *proof, uint32_t length) {
    uint8_t key[DIGEST], signature[DIGEST];
    if (from_base64(proof, length, key, DIGEST) != DIGEST)
        return 0;
    keyed_digest(password.stored_key, DIGEST, said->bytes, said->length, signature);
    for (int i = 0; i < DIGEST; i++)
        key[i] ^= signature[i];
    digest_of(key, DIGEST, key);
    return are_same(key, password.stored_key, DIGEST);
}

static int is_string(const char *at, const char *end, const char *wanted, uint32_t length) {
    return (uint32_t)(end - at) == length && memcmp(at, wanted, length) == 0;
}

int scram_end(struct scram *scram, const char *message, uint32_t length, struct text *answer) {
    const char *end = end_of(message, length), *head, *nonce, *proof = end, *at, *last = NULL;
    for (at = message; at < end; at++)
        if (*at == ',')
            last = at;
    at = attribute(message, end, 'c', &head);
    if (length > MOST_MESSAGE || last == NULL || at == NULL || at == end)
        return 0;
    if (!is_string(head, at, scram->head, (uint32_t)strlen(scram->head)))
        return 0;
    at = attribute(at + 1, end, 'r', &nonce);
    if (at == NULL || !is_string(nonce, at, scram->nonce.bytes, scram->nonce.length))
        return 0;
    if (attribute(last + 1, end, 'p', &proof) != end)
        return 0;
    add(&scram->said, ",");
    add_bytes(&scram->said, message, (uint32_t)(last - message));
    if (scram->said.is_full || !is_proved(&scram->said, proof, (uint32_t)(end - proof)))
        return 0;
    uint8_t signature[DIGEST];
    char text[48];
    keyed_digest(password.server_key, DIGEST, scram->said.bytes, scram->said.length, signature);
    to_base64(signature, DIGEST, text);
    add(answer, "v=");
    add(answer, text);
    return 1;
}

void scram_drop(struct scram *scram) {
    text_drop(&scram->said);
    text_drop(&scram->nonce);
}
