#include "digest.h"

#include <string.h>

#include "../lib/sha256.h"

#define BLOCK 64

void digest_start(struct digest *digest) {
    static const uint32_t first[8] = {
        0x6a09e667, 0xbb67ae85, 0x3c6ef372, 0xa54ff53a, 0x510e527f, 0x9b05688c, 0x1f83d9ab, 0x5be0cd19,
    };
    memcpy(digest->state, first, sizeof first);
    digest->length = 0;
}

void digest_add(struct digest *digest, const void *bytes, uint32_t count) {
    const uint8_t *from = bytes;
    for (uint32_t i = 0; i < count; i++) {
        digest->block[digest->length++ % BLOCK] = from[i];
        if (digest->length % BLOCK == 0)
            compress(digest->state, digest->block);
    }
}

void digest_end(struct digest *digest, uint8_t answer[DIGEST]) {
    static const uint8_t rest[BLOCK] = {0x80};
    uint64_t bits = digest->length * 8;
    uint8_t length[8];
    for (int i = 0; i < 8; i++)
        length[i] = (uint8_t)(bits >> (56 - 8 * i));
    digest_add(digest, rest, 1 + (uint32_t)((BLOCK + 55 - digest->length % BLOCK) % BLOCK));
    digest_add(digest, length, sizeof length);
    for (int i = 0; i < DIGEST; i++)
        answer[i] = (uint8_t)(digest->state[i / 4] >> (24 - 8 * (i % 4)));
}

void digest_of(const void *bytes, uint32_t count, uint8_t answer[DIGEST]) {
    struct digest digest;
    digest_start(&digest);
    digest_add(&digest, bytes, count);
    digest_end(&digest, answer);
}

static void keyed_start(struct keyed *keyed, const void *key, uint32_t length) {
    uint8_t block[BLOCK] = {0}, padded[BLOCK];
    if (length > BLOCK)
        digest_of(key, length, block);
    else
        memcpy(block, key, length);
    for (int i = 0; i < BLOCK; i++)
        padded[i] = block[i] ^ 0x36;
    digest_start(&keyed->inner);
    digest_add(&keyed->inner, padded, BLOCK);
    for (int i = 0; i < BLOCK; i++)
        padded[i] = block[i] ^ 0x5c;
    digest_start(&keyed->outer);
    digest_add(&keyed->outer, padded, BLOCK);
}

static void keyed_end(const struct keyed *keyed, const void *bytes, uint32_t count, uint8_t answer[DIGEST]) {
    struct digest inner = keyed->inner, outer = keyed->outer;
    digest_add(&inner, bytes, count);
    digest_end(&inner, answer);
    digest_add(&outer, answer, DIGEST);
    digest_end(&outer, answer);
}

void keyed_digest(const void *key, uint32_t key_length, const void *bytes, uint32_t count, uint8_t answer[DIGEST]) {
    struct keyed keyed;
    keyed_start(&keyed, key, key_length);
    keyed_end(&keyed, bytes, count, answer);
}

void stretch_start(struct stretching *stretching, const void *password, uint32_t length, const void *salt, uint32_t salt_length,
                   int rounds) {
    keyed_start(&stretching->keyed, password, length);
    struct keyed first = stretching->keyed;
    digest_add(&first.inner, salt, salt_length);
    keyed_end(&first, "\0\0\0\1", 4, stretching->turn);
    memcpy(stretching->answer, stretching->turn, DIGEST);
    stretching->left = rounds - 1;
}

int stretch(struct stretching *stretching, int rounds) {
    for (; rounds > 0 && stretching->left > 0; rounds--, stretching->left--) {
        keyed_end(&stretching->keyed, stretching->turn, DIGEST, stretching->turn);
        for (int i = 0; i < DIGEST; i++)
            stretching->answer[i] ^= stretching->turn[i];
    }
    return stretching->left == 0;
}

static const char digits[] = "ABCDEFGHIJKLMNOPQRSTUVWXYZabcdefghijklmnopqrstuvwxyz0123456789+/";

void to_base64(const uint8_t *bytes, uint32_t count, char *to) {
    for (uint32_t i = 0; i < count; i += 3) {
        uint32_t left = count - i;
        uint32_t word = (uint32_t)bytes[i] << 16 | (left > 1 ? (uint32_t)bytes[i + 1] << 8 : 0) | (left > 2 ? bytes[i + 2] : 0);
        *to++ = digits[word >> 18];
        *to++ = digits[word >> 12 & 63];
        *to++ = left > 1 ? digits[word >> 6 & 63] : '=';
        *to++ = left > 2 ? digits[word & 63] : '=';
    }
    *to = '\0';
}

static int digit(char c) {
    const char *at = c == '\0' ? NULL : strchr(digits, c);
    return at == NULL ? -1 : (int)(at - digits);
}

int from_base64(const char *text, uint32_t count, uint8_t *to, int most) {
    int length = 0;
    if (count % 4 != 0)
        return -1;
    for (uint32_t i = 0; i < count; i += 4) {
        int is_last = i + 4 == count;
        int wanted = is_last && text[i + 3] == '=' ? (text[i + 2] == '=' ? 1 : 2) : 3;
        uint32_t word = 0;
        for (int j = 0; j < 4; j++) {
            int value = j <= wanted ? digit(text[i + (uint32_t)j]) : 0;
            if (value < 0)
                return -1;
            word = word << 6 | (uint32_t)value;
        }
        if (length + wanted > most)
            return -1;
        for (int j = 0; j < wanted; j++)
            to[length++] = (uint8_t)(word >> (16 - 8 * j));
    }
    return length;
}

int are_same(const uint8_t *one, const uint8_t *other, uint32_t count) {
    uint8_t differ = 0;
    for (uint32_t i = 0; i < count; i++)
        differ |= one[i] ^ other[i];
    return differ == 0;
}
