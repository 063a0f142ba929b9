/* SHA-256 (FIPS 180-4), HMAC (RFC 2104), PBKDF2 (RFC 8018) and base64 (RFC 4648). */
#ifndef DIGEST_H
#define DIGEST_H

#include <stdint.h>

#define DIGEST 32

struct digest {
    uint32_t state[8];
    uint64_t length;
    uint8_t block[64];
};

void digest_start(struct digest *digest);
void digest_add(struct digest *digest, const void *bytes, uint32_t count);
void digest_end(struct digest *digest, uint8_t answer[DIGEST]);

void digest_of(const void *bytes, uint32_t count, uint8_t answer[DIGEST]);
void keyed_digest(const void *key, uint32_t key_length, const void *bytes, uint32_t count, uint8_t answer[DIGEST]);

/* The two digests of HMAC after their first blocks, which a key makes. */
struct keyed {
    struct digest inner, outer;
};

/* The first block of PBKDF2 with HMAC-SHA-256, of which so many rounds are left. It is worked off a part at a time: `stretch` does at most
   so many rounds, and answers whether none is left: `answer` is what came of it then. */
struct stretching {
    struct keyed keyed;
    uint8_t turn[DIGEST], answer[DIGEST];
    int left;
};

void stretch_start(struct stretching *stretching, const void *password, uint32_t length, const void *salt, uint32_t salt_length,
                   int rounds);
int stretch(struct stretching *stretching, int rounds);

/* Writes base64 with its closing zero; `to` has room for 4 characters for each 3 bytes that are begun, and the zero. */
void to_base64(const uint8_t *bytes, uint32_t count, char *to);

/* Reads so many characters. Answers how many bytes there are, or -1 where it isn't base64 or they are more than `most`. */
int from_base64(const char *text, uint32_t count, uint8_t *to, int most);

/* Whether bytes are the same, in a time that doesn't tell where they differ. */
int are_same(const uint8_t *one, const uint8_t *other, uint32_t count);

#endif
