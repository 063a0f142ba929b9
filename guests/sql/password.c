#include "password.h"

#include <string.h>

void password_start(struct stretching *stretching, const void *bytes, uint32_t count) {
    uint8_t salt[sizeof password.salt];
    int length = from_base64(password.salt, (uint32_t)strlen(password.salt), salt, sizeof salt);
    stretch_start(stretching, bytes, count, salt, (uint32_t)length, password.rounds);
}

int is_password(const struct stretching *stretching) {
    uint8_t key[DIGEST];
    keyed_digest(stretching->answer, DIGEST, "Client Key", 10, key);
    digest_of(key, DIGEST, key);
    return are_same(key, password.stored_key, DIGEST);
}
