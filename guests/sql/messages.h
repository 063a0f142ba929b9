/* Messages of PostgreSQL's protocol, version 3.0 (https://www.postgresql.org/docs/15/protocol-message-formats.html). */
#ifndef MESSAGES_H
#define MESSAGES_H

#include <stdint.h>

#include "text.h"

void put_32(uint8_t *at, uint32_t value);
uint32_t get_32(const uint8_t *at);

/* The parts of a message: a number of 2, 4 or 8 bytes, and a string with the zero that ends it. */
void add_16(struct text *text, uint32_t value);
void add_32(struct text *text, uint32_t value);
void add_64(struct text *text, uint64_t value);
void add_string(struct text *text, const char *value);

/* A message's type and the place of its length; answers where it begins, for `message_end`, which writes that. */
uint32_t message_begin(struct text *out, char type);
void message_end(struct text *out, uint32_t at);

/* Whole messages. */
void say_empty(struct text *out, char type); /* with nothing in it */
void say_parameter(struct text *out, const char *name, const char *value);
void say_authentication(struct text *out, uint32_t kind, const void *bytes, uint32_t count);

/* The end of a statement, an error and a warning: they find their place where there is no memory left. */
void say_complete(struct text *out, const char *tag, int is_counted, int64_t count);
void say_error(struct text *out, const char *severity, const char *code, const char *why);
void say_warning(struct text *out, const char *code, const char *why);

/* A length that a client says, in 4 bytes: each is read by this. NO_LENGTH where it is less than `least` or more than `most`. */
#define NO_LENGTH UINT32_MAX
uint32_t length_at(const uint8_t *at, uint32_t least, uint32_t most);

/* How many bytes the first of these messages has; 0 where it hasn't come whole, NO_LENGTH where its length can't be. Before the length,
   which counts itself and is from `least` to `most`, stand so many bytes of its type: 1, or 0 in a connection's first message. */
uint32_t message_length(const uint8_t *bytes, uint32_t count, uint32_t type, uint32_t least, uint32_t most);

/* A message from the client as it is read, part by part. Where it is too short `is_short` is set, and what is read is 0 or empty. */
struct reader {
    const uint8_t *at, *end;
    int is_short;
};

uint32_t read_16(struct reader *reader);
uint32_t read_32(struct reader *reader);
const char *read_string(struct reader *reader);
const uint8_t *read_bytes_of(struct reader *reader, uint32_t count);

/* A length and so many bytes, or NULL where the length is -1, which stands for no value. */
const uint8_t *read_value(struct reader *reader, uint32_t *count);

/* Whether all of the message was read, and nothing is behind it. */
int is_at_end(const struct reader *reader);

#endif
