/* How much stack a call takes. */
#ifndef STACK_H
#define STACK_H

#include <stddef.h>

/* The bytes of stack that the function takes with this argument, its own frame with them. */
size_t stack_of(void (*function)(void *), void *argument);

#endif
