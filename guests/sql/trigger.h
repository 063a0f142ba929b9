/* Triggers that come in parts. psql sends what stands before each semicolon as a query of its own, also within the body of a trigger:

     CREATE TRIGGER t AFTER INSERT ON a BEGIN UPDATE b SET n = n + 1;
     END; */
#ifndef TRIGGER_H
#define TRIGGER_H

#include "text.h"

enum part {
    IS_NONE,  /* of a trigger that comes in parts */
    IS_PART,  /* it is kept, and more is to come */
    IS_LAST,  /* what is kept is a whole trigger with it */
    IS_ELSE,  /* it can't stand in the trigger before it, of which nothing is kept any more */
    NO_ROOM,  /* for it, and nothing is kept any more */
};

/* Takes a query's text. */
enum part take_part(struct text *kept, const char *text);

#endif
