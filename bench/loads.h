/*
 * The commands that the bench sends. A load is one command or several of a
 * kind; what is timed is a call over all of them, divided by their count.
 */
#ifndef BENCH_LOADS_H
#define BENCH_LOADS_H

#include <stdbool.h>
#include <stddef.h>
#include <stdint.h>

#define LONGEST_COMMAND 4096u

struct command {
	size_t len;
	uint8_t bytes[LONGEST_COMMAND];
};

/* In place of a number: any but 00, and it may differ from command to command. */
#define REFUSED UINT32_MAX

struct load {
	char name[40];
	struct command *commands;
	size_t count;
	const uint8_t *pin_block; /* what the key box answers, beside `enciphered` */
	uint32_t asked;           /* what the asking call answers each command, */
	uint32_t answered;        /* and what the answering call does; or REFUSED */
};

/* The key box's other answer, in every load. */
extern const uint8_t enciphered[8];

/* The loads of the table, and those of one command each that show how time
 * grows with its length. */
#define LOADS 7
#define GROWTH 7

extern struct load loads[LOADS];
extern struct load growth[GROWTH];

/* Fills in the commands. Once, before anything is timed. */
void loads_make(void);

#endif
