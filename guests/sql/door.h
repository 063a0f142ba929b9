/* Whether HTTP's clients have the password. One that was right is known again by its digest. To find it out of another takes thousands of
   digests: that is done of one client at a time, in turns with all else, and not of many in a second; the others wait in a line that isn't
   long. */
#ifndef DOOR_H
#define DOOR_H

#include "digest.h"
#include "session.h"

#define MOST_CREDENTIALS 512

enum verdict {
    NOT_YET,  /* the session waits, and its service goes on when it is found out */
    RIGHT,
    WRONG,
    TOO_MANY, /* wait in the line */
};

/* One that is or was at the door. It is all zero before. */
struct visitor {
    struct session *session;
    struct visitor *next;               /* in the line */
    int is_in_line;
    char credentials[MOST_CREDENTIALS]; /* that it gave last */
    enum verdict verdict;               /* of these, once it is RIGHT or WRONG */
};

/* Asks of what stands in a request after 'Basic ', in base64: a name, a colon, and the password. */
enum verdict door_ask(struct visitor *visitor, struct session *session, const char *credentials);

/* The visitor's session ends. */
void door_leave(struct visitor *visitor);

/* Does a part of the work. */
void door_poll(void);

#endif
