#include "stack.h"

#include <stdint.h>
#include <string.h>
#include <ucontext.h>

#define SIZE 65536u
#define PAINT 0xA5

static _Alignas(64) uint8_t stack[SIZE];
static ucontext_t caller, callee;
static void (*current_call)(void *of);
static void *current_of;

static void enter(void)
{
	current_call(current_of);
}

static void nothing(void *of)
{
	(void)of;
}

/* From the far end of the stack to the first byte that has lost its paint. */
static size_t bytes_used(void (*call)(void *of), void *of)
{
	size_t kept = 0;

	memset(stack, PAINT, SIZE);
	current_call = call;
	current_of = of;
	getcontext(&callee);
	callee.uc_stack.ss_sp = stack;
	callee.uc_stack.ss_size = SIZE;
	callee.uc_link = &caller;
	makecontext(&callee, enter, 0);
	swapcontext(&caller, &callee);
	while (kept < SIZE && stack[kept] == PAINT)
		kept++;
	return SIZE - kept;
}

size_t stack_used(void (*call)(void *of), void *of)
{
	return bytes_used(call, of) - bytes_used(nothing, NULL);
}
