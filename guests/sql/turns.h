/* Work in turns: what takes long is left in its midst after some milliseconds, so that the network and others have their turns, and goes
   on later where it stood. It is left where it looks whether its time is over, and, by the timer, within SQLite (ticks.h). */
#ifndef TURNS_H
#define TURNS_H

#include "stacks.h"

struct turn {
    int is_begun;   /* the work has, and isn't over */
    int held;       /* so often it was told that it isn't to be left */
    uint32_t given; /* how many it was given */
    void (*act)(void *with);
    void *with;
    struct stack stack;
};

/* Gives work a turn: its first, by `act`, or the next. Answers 0, and nothing has come of it, where there is no memory for a further one
   beside that which has begun. */
int turn_give(struct turn *turn);

/* Within the work: leaves it if the turn's time is over, or at once. Elsewhere they do nothing. */
void turn_look(void);
void turn_leave(void);

/* The timer's: leaves the work, unless it is held. Answers whether it was left, when its next turn comes. */
int turn_tick(void);

/* Within the work: it isn't left at a look, nor by the timer, since it changes what others use; and no more. */
void turn_hold(void);
void turn_release(void);

/* How many milliseconds the longest turn has taken since this was asked before. */
uint64_t turn_longest(void);

#endif
