/* Stacks of this machine's, one for each work that isn't over. */
#include "../../guests/sql/stacks.h"

#include <stdlib.h>
#include <sys/mman.h>
#include <ucontext.h>

#define STACK (4u << 20)

struct context {
    ucontext_t at;
    uint8_t *bytes;
};

static ucontext_t outside;

static void make(struct stack *stack, void (*begin)(void)) {
    struct context *context = stack->kept = malloc(sizeof *context);
    context->bytes = mmap(NULL, STACK, PROT_READ | PROT_WRITE, MAP_PRIVATE | MAP_ANONYMOUS, -1, 0);
    if (context->bytes == MAP_FAILED || getcontext(&context->at) != 0)
        abort();
    context->at.uc_stack.ss_sp = context->bytes;
    context->at.uc_stack.ss_size = STACK;
    makecontext(&context->at, begin, 0);
}

int stack_enter(struct stack *stack, void (*begin)(void)) {
    if (stack->kept == NULL)
        make(stack, begin);
    return swapcontext(&outside, &((struct context *)stack->kept)->at) == 0;
}

void stack_leave(struct stack *stack) {
    if (swapcontext(&((struct context *)stack->kept)->at, &outside) != 0)
        abort();
}

void stack_empty(struct stack *stack) {
    munmap(((struct context *)stack->kept)->bytes, STACK);
    free(stack->kept);
    stack->kept = NULL;
}
