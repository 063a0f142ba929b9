/* The password that the build was given, as SCRAM keeps it (RFC 5802): who has this can't log in by it. */
#ifndef PASSWORD_H
#define PASSWORD_H

#include <stdint.h>

#include "digest.h"

struct password {
    int is_set;
    int rounds;
    char salt[32]; /* in base64 */
    uint8_t stored_key[DIGEST];
    uint8_t server_key[DIGEST];
};

extern const struct password password;

/* Whether bytes are the password is found out by as many digests as there are rounds, twice: `password_start` begins, and when `stretch`
   has come to its end `is_password` answers it. */
void password_start(struct stretching *stretching, const void *bytes, uint32_t count);
int is_password(const struct stretching *stretching);

#endif
