/*
 * The two calls of each core, ours and the reference's, under one shape, so
 * that one loop times both.
 */
#ifndef BENCH_CORES_H
#define BENCH_CORES_H

#include "loads.h"
#include "quillgimlet.h"

enum core { OURS, REFERENCE, CORES };
enum call { ASK, ANSWER, CALLS };

/* The longest response; more than the asking call wants. */
#define ROOM 65u

/* Takes the usual settings for all calls: every load is of format 01, which they
 * allow. To be called first. */
void cores_begin(void);

/* Makes the call for one command of a load. */
qg_reply make_call(enum core core, enum call call, const struct load *load,
	const struct command *command, uint8_t *out);

/* Whether both cores answer each command of a load with the same number, count,
 * place, field and bytes, and with the number that the load says. */
bool answered_alike(enum call call, const struct load *load);

#endif
