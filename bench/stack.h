/* How much stack a call takes. */
#ifndef STACK_H
#define STACK_H

#include <stddef.h>

/* The bytes of stack that a call writes to, with its return address and the frame of `call` itself. */
size_t stack_of(void (*call)(void *), void *handed);

#endif
