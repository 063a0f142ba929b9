/* All work has one stack. Of work that isn't over what it has there is kept in SQLite's memory while others stand on it, and is put back to
   the same place, since it has addresses of itself. */
#include "stacks.h"

#include <stddef.h>
#include <string.h>

#include "sqlite3.h"

/* SQLite calls itself for each level of an expression, a pattern and a view. */
#define STACK (2u << 20)

/* What switch.s keeps at the top of a stack that doesn't run: the address where it goes on, and the registers s0 to s11. */
struct frame {
    void (*on)(void);
    uint64_t saved[13];
};

/* Keeps the stack that runs at `from`, and goes on with the one at `to`. */
void switch_stack(void **from, void *to);

static uint8_t bytes[STACK] __attribute__((aligned(16)));
static struct stack *standing; /* the one whose work has the bytes */
static void *outside;          /* the stack of who entered */

static uint8_t *end_of_stack(void) { return bytes + STACK; }

static int put_aside(struct stack *stack) {
    uint32_t count = (uint32_t)(end_of_stack() - (uint8_t *)stack->at);
    stack->kept = sqlite3_malloc64(count);
    if (stack->kept == NULL)
        return 0;
    memcpy(stack->kept, stack->at, count);
    stack->count = count;
    standing = NULL;
    return 1;
}

static void put_back(struct stack *stack) {
    if (stack->kept == NULL)
        return;
    memcpy(stack->at, stack->kept, stack->count);
    sqlite3_free(stack->kept);
    stack->kept = NULL;
}

static void make(struct stack *stack, void (*begin)(void)) {
    struct frame *frame = (struct frame *)(end_of_stack() - sizeof *frame);
    memset(frame, 0, sizeof *frame);
    frame->on = begin;
    stack->at = frame;
}

int stack_enter(struct stack *stack, void (*begin)(void)) {
    if (standing != NULL && standing != stack && !put_aside(standing))
        return 0;
    if (stack->at == NULL)
        make(stack, begin);
    put_back(stack);
    standing = stack;
    switch_stack(&outside, stack->at);
    return 1;
}

void stack_leave(struct stack *stack) { switch_stack(&stack->at, outside); }

void stack_empty(struct stack *stack) {
    stack->at = NULL;
    if (standing == stack)
        standing = NULL;
}
