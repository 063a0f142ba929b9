#include "turns.h"

#include <stddef.h>

#include "clock.h"
#include "ticks.h"

/* Milliseconds of a turn. */
#define TURN 2

static struct turn *running;
static uint64_t until, longest;

static void begin(void) {
    struct turn *turn = running;
    ticks_on();
    turn->act(turn->with);
    ticks_off();
    turn->is_begun = 0;
    stack_leave(&turn->stack);
}

int turn_give(struct turn *turn) {
    uint64_t now = clock_now();
    until = now + TURN;
    ticks_at(until);
    running = turn;
    int was_begun = turn->is_begun;
    turn->is_begun = 1;
    turn->given++;
    int is_given = stack_enter(&turn->stack, begin);
    running = NULL;
    if (!is_given)
        turn->is_begun = was_begun;
    else if (!turn->is_begun)
        stack_empty(&turn->stack);
    uint64_t took = clock_now() - now;
    longest = took > longest ? took : longest;
    return is_given;
}

void turn_leave(void) {
    struct turn *turn = running;
    if (turn == NULL)
        return;
    ticks_off();
    stack_leave(&turn->stack);
    ticks_on();
}

void turn_look(void) {
    if (running != NULL && running->held == 0 && clock_now() >= until)
        turn_leave();
}

int turn_tick(void) {
    struct turn *turn = running;
    if (turn == NULL || turn->held > 0)
        return 0;
    stack_leave(&turn->stack);
    return 1;
}

void turn_hold(void) {
    if (running != NULL)
        running->held++;
}

void turn_release(void) {
    if (running != NULL)
        running->held--;
}

uint64_t turn_longest(void) {
    uint64_t took = longest;
    longest = 0;
    return took;
}
