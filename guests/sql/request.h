/* Requests of HTTP/1.1 (RFC 9112), as far as they are served here. */
#ifndef REQUEST_H
#define REQUEST_H

#include <stdint.h>

#define MOST_HEAD (16 * 1024)
#define MOST_VALUE 512

enum method { GET, HEAD, POST, OPTIONS, OTHER };

struct request {
    enum method method;
    char path[64];         /* without what is asked; of one that is longer the front */
    const char *asked;     /* after the question mark, or NULL */
    uint32_t asked_length;
    uint32_t head;         /* bytes of the head, with the blank line */
    uint32_t length;       /* of the body */
    int has_length;        /* that is told */
    int is_old;            /* of HTTP/1.0, which has no chunks */
    int is_kept;           /* the connection stays after the answer */
    int is_expecting;      /* the client waits to be told that its body is wanted */
    int is_form;           /* the body is a form's */
    int is_json;           /* the answer is to be JSON */
    char password[MOST_VALUE]; /* what stands after 'Basic ', in base64; empty where there is none */
    int is_strange;        /* a page of another place asks, or may: nothing shows that none does */
};

/* Reads a head that has come whole. Answers 0, or the status of why it is refused. */
int read_request(const char *bytes, uint32_t length, struct request *request);

/* How many bytes a head has with its blank line, or 0 where it hasn't come whole. */
uint32_t head_of(const char *bytes, uint32_t length);

/* The value of a name in what a URI asks or a form says (NAME=VALUE&..), taken back to what it stands for. Answers its length, or -1 where
   there is none; `to` has room for `length` bytes. */
int32_t value_of(const char *asked, uint32_t length, const char *name, char *to);

#endif
