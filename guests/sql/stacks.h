/* Stacks on which work stands that isn't over when another's turn comes. */
#ifndef STACKS_H
#define STACKS_H

#include <stdint.h>

struct stack {
    void *at;       /* where its work left it; NULL: it has none */
    void *kept;     /* what the implementation keeps of it */
    uint32_t count; /* so many bytes */
};

/* Goes on with the work that stands on a stack, or begins it there. Answers when the work leaves, or 0 at once where there is no memory for
   a second stack. */
int stack_enter(struct stack *stack, void (*begin)(void));

/* Within the work: back to who entered. */
void stack_leave(struct stack *stack);

/* The work that stood there is over. */
void stack_empty(struct stack *stack);

#endif
