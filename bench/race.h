/*
 * How long things take that are done again and again, beside each other.
 */
#ifndef BENCH_RACE_H
#define BENCH_RACE_H

#include <stddef.h>

#define MOST_RACERS 3

/* Something that is done so many times in a row, and what it is done with. */
struct racer {
	void (*go)(const void *with, size_t goes);
	const void *with;
};

/* Nanoseconds a go of each racer, and how many times as long the first takes as
 * each of them. */
struct result {
	double ns[MOST_RACERS];
	double ratio[MOST_RACERS];
};

/* Many short rounds of all racers, each first in turn. Each figure is the middle
 * one of the rounds, so that a round in which the machine did something else is
 * lost; a ratio is taken round by round. */
struct result race(const struct racer *racers, size_t count);

#endif
