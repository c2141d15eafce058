#include "stack.h"

#include <stdint.h>
#include <stdio.h>
#include <stdlib.h>
#include <string.h>
#include <ucontext.h>

/* A stack of its own, far larger than any call takes, and full of paint before each call: where the
 * paint is gone, the call has been. A frame may leave places as they were, so the lowest byte that
 * changed counts, and not how many did. */
enum { ROOM = 1 << 20, PAINT = 0xa5 };

static uint8_t room[ROOM];
static ucontext_t here, there;
static void (*wanted)(void *);
static void *with;

static void run_wanted(void) {
    wanted(with);
}

static void nothing(void *argument) {
    (void)argument;
}

/* How far down the stack is written, with what it takes to get onto it and off it again. */
static size_t reached(void (*function)(void *), void *argument) {
    wanted = function;
    with = argument;
    memset(room, PAINT, sizeof room);
    if (getcontext(&there) != 0) {
        perror("bench: getcontext");
        exit(1);
    }
    there.uc_stack.ss_sp = room;
    there.uc_stack.ss_size = sizeof room;
    there.uc_link = &here;
    makecontext(&there, run_wanted, 0);
    if (swapcontext(&here, &there) != 0) {
        perror("bench: swapcontext");
        exit(1);
    }
    size_t untouched = 0;
    while (untouched < ROOM && room[untouched] == PAINT)
        untouched++;
    return ROOM - untouched;
}

size_t stack_of(void (*function)(void *), void *argument) {
    return reached(function, argument) - reached(nothing, NULL);
}
