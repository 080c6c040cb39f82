/* How much stack a function uses: it runs on a painted one, which is looked at afterwards. */
#ifndef BENCH_STACK_H
#define BENCH_STACK_H

#include <stddef.h>
#include <stdint.h>
#include <string.h>
#include <ucontext.h>

enum { STACK_BYTES = 1 << 18, STACK_PAINT = 0xa5 };

static ucontext_t stack_back, stack_there;
static void (*stack_called)(void);

static void stack_call(void)
{
    if (stack_called != NULL)
        stack_called();
}

static size_t stack_touched(void (*function)(void))
{
    static uint8_t stack[STACK_BYTES];
    memset(stack, STACK_PAINT, sizeof stack);
    getcontext(&stack_there);
    stack_there.uc_stack.ss_sp = stack;
    stack_there.uc_stack.ss_size = sizeof stack;
    stack_there.uc_link = &stack_back;
    stack_called = function;
    makecontext(&stack_there, stack_call, 0);
    swapcontext(&stack_back, &stack_there);
    size_t clean = 0;
    while (clean < sizeof stack && stack[clean] == STACK_PAINT)
        clean++;
    return sizeof stack - clean;
}

/* In bytes, without what it takes to get onto that stack. */
static inline size_t stack_of(void (*function)(void))
{
    return stack_touched(function) - stack_touched(NULL);
}

#endif
