/*
 * How long a call takes over a load, ours beside the reference's.
 */
#ifndef BENCH_TIMING_H
#define BENCH_TIMING_H

#include "cores.h"

struct figures {
	double ns[CORES]; /* a call */
	double ratio;     /* ours to the reference's, round by round */
};

/* Many short rounds of both cores in turn. Each figure is the middle one of
 * the rounds, so that a round in which the machine did something else is lost. */
struct figures measured(enum call call, const struct load *load);

/* How many times as long our call takes over one load as over another, round by
 * round in the same way. */
double times_as_long(enum call call, const struct load *load, const struct load *other);

#endif
