/* Makes a call on a stack of its own, which is filled with one byte beforehand; what has changed, the call used. */
#include "stack.h"

#include <stdint.h>
#include <stdlib.h>
#include <string.h>
#include <ucontext.h>

#define PAINT 0xa5

static uint8_t stack[1 << 16];
static ucontext_t caller, callee;
static void (*called)(void *);
static void *handed_on;
static volatile uint8_t *top; /* where the call begins */

static void run(void)
{
    top = __builtin_frame_address(0);
    called(handed_on);
}

size_t stack_of(void (*call)(void *), void *handed)
{
    volatile uint8_t *deepest = stack;
    memset(stack, PAINT, sizeof stack);
    called = call;
    handed_on = handed;
    if (getcontext(&callee))
        abort();
    callee.uc_stack.ss_sp = stack;
    callee.uc_stack.ss_size = sizeof stack;
    callee.uc_link = &caller;
    makecontext(&callee, run, 0);
    if (swapcontext(&caller, &callee))
        abort();
    while (deepest < top && *deepest == PAINT)
        deepest++;
    return (size_t)(top - deepest);
}
