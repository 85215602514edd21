/*
 * The calls of the C face as a table: for each its code in a case file, its
 * name, what it is handed, and a function that makes the call. A new call is
 * one row and one small function in calls.c. qg_usual is handed nothing: the
 * numbers of its row are the settings that it must hand back. qg_odd_parity
 * hands back a byte: it is the number of a reply that is 0 otherwise.
 */
#ifndef HOST_CALLS_H
#define HOST_CALLS_H

#include "cases.h"
#include "quillgimlet.h"

/* A run as it is lent to a call. */
struct lent_run {
	uint8_t *at;
	size_t len;
};

/* All that a call is handed. */
struct call_args {
	const uint64_t *numbers;
	struct lent_run runs[CASE_RUNS];
	struct lent_run out;
};

/* A number of a call: its name, and how many bytes its parameter has. */
struct call_number {
	const char *name;
	uint8_t bytes;
};

struct call {
	uint8_t code;
	const char *name;
	struct call_number numbers[CASE_NUMBERS];  /* the first without a name ends them */
	const char *runs[CASE_RUNS];               /* the first NULL ends them */
	bool has_out;
	qg_reply (*make)(const struct call_args *args);
};

extern const struct call calls[];
extern const size_t calls_len;

/* The call with a code, or NULL. */
const struct call *call_of(uint8_t code);

size_t call_runs(const struct call *call);

/* Whether a case has what the call is handed: as many numbers, each within its
 * parameter's range, as many runs, and an output where the call writes one. */
bool call_fits(const struct call *call, const struct call_case *one);

#endif
