/*
 * The reader of a case file: calls with their arguments and the answers that
 * they must get. Integers are little-endian.
 *
 *   header    8 bytes "QGCASES2"
 *   a case    u8   code of the call, not 0
 *             u8   n, then n times u64: the numbers in the order of the C
 *                  face, a settings struct as header, restricted, variable;
 *                  of the usual settings, those that must be handed back
 *             u8   r, then r times u32 length and bytes: the runs in the same
 *                  order, the output not among them
 *             u8   1 where the call is lent an output, else 0
 *             with an output: u32 its length, and its bytes before the call
 *             u32  expected number
 *             u32  expected count of what is written
 *             u32  expected place
 *             u32  expected field
 *             with an output: its bytes after the call
 *   trailer   u8 0, then u64 the number of cases; nothing follows it
 *
 * A file that begins with "QGCASES1" is older: its cases have no place and no
 * field, and all else is alike. It can be replayed still; what a reply has for
 * place and field is held to nothing then.
 */
#ifndef HOST_CASES_H
#define HOST_CASES_H

#include <stdbool.h>
#include <stddef.h>
#include <stdint.h>
#include <stdio.h>

/* More numbers, or more runs, than any call of the C face has. */
#define CASE_NUMBERS 8
#define CASE_RUNS 8

struct case_run {
	const uint8_t *bytes;
	size_t len;
};

struct call_case {
	uint8_t code;
	uint8_t numbers_len;
	uint8_t runs_len;
	bool has_out;
	uint64_t numbers[CASE_NUMBERS];
	struct case_run runs[CASE_RUNS];
	struct case_run before;
	struct case_run after;
	uint32_t number;
	uint32_t written;
	bool points;        /* the case has place and field, and they are held */
	uint32_t place;
	uint32_t field;
};

/* Of the file a window is in memory, which moves on from case to case: a file
 * may be a pipe, and longer than the memory. */
struct case_file {
	FILE *stream;
	uint8_t *bytes;     /* the window */
	size_t len;         /* how much of it is filled */
	size_t at;          /* how much of that is read */
	bool ended;         /* nothing of the file stands behind the window */
	bool points;        /* its cases have place and field */
	uint64_t count;     /* cases read so far */
	const char *fault;  /* what is wrong with the file, or NULL */
};

/* Opens a file or a pipe and reads its header. False: `fault` says why. */
bool cases_open(struct case_file *file, const char *path);

/* Reads the next case. False at the trailer and at a fault. The case's runs
 * point into the window and hold until the next is read. */
bool cases_next(struct case_file *file, struct call_case *one);

void cases_close(struct case_file *file);

#endif
