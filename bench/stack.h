/*
 * How much stack a call takes: it runs on a stack of its own that is painted
 * beforehand, and what has lost its paint was used.
 */
#ifndef BENCH_STACK_H
#define BENCH_STACK_H

#include <stddef.h>

/* The bytes of stack down to the lowest that `call(of)` wrote, its own frame
 * among them. */
size_t stack_used(void (*call)(void *of), void *of);

#endif
