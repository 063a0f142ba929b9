/* The server's side of SCRAM-SHA-256 (RFC 5802, RFC 7677), without channel binding. */
#ifndef SCRAM_H
#define SCRAM_H

#include "text.h"

struct scram {
    struct text said;  /* the client's first message, and the server's after it */
    struct text nonce; /* of both */
    char head[64];     /* what the client's first message begins with, in base64 */
};

/* Takes the client's first message, and adds the server's to `answer`. Answers whether it is one. */
int scram_begin(struct scram *scram, const char *message, uint32_t length, uint32_t number, struct text *answer);

/* Takes the client's last message, and adds the server's to `answer`. Answers whether the client knows the password. */
int scram_end(struct scram *scram, const char *message, uint32_t length, struct text *answer);

void scram_drop(struct scram *scram);

#endif
