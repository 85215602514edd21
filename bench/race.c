#define _POSIX_C_SOURCE 199309L /* clock_gettime */
#include "race.h"

#include <stdlib.h>
#include <time.h>

#define ROUNDS 41
#define ROUND_NS 2e6
#define PILOT_GOES 100

static double now(void)
{
	struct timespec at;

	clock_gettime(CLOCK_MONOTONIC, &at);
	return (double)at.tv_sec * 1e9 + (double)at.tv_nsec;
}

static double timed(const struct racer *racer, size_t goes)
{
	double began = now();

	racer->go(racer->with, goes);
	return (now() - began) / (double)goes;
}

static int ascending(const void *a, const void *b)
{
	double x = *(const double *)a, y = *(const double *)b;

	return (x > y) - (x < y);
}

static double middle_of(double *values)
{
	qsort(values, ROUNDS, sizeof *values, ascending);
	return values[ROUNDS / 2];
}

struct result race(const struct racer *racers, size_t count)
{
	double ns[MOST_RACERS][ROUNDS], ratio[MOST_RACERS][ROUNDS];
	size_t goes[MOST_RACERS];
	struct result result = { { 0 }, { 0 } };

	for (size_t i = 0; i < count; i++)
		goes[i] = 1 + (size_t)(ROUND_NS / timed(&racers[i], PILOT_GOES));
	for (size_t r = 0; r < ROUNDS; r++) {
		for (size_t i = 0; i < count; i++) {
			size_t turn = (r + i) % count;

			ns[turn][r] = timed(&racers[turn], goes[turn]);
		}
		for (size_t i = 0; i < count; i++)
			ratio[i][r] = ns[0][r] / ns[i][r];
	}
	for (size_t i = 0; i < count; i++) {
		result.ns[i] = middle_of(ns[i]);
		result.ratio[i] = middle_of(ratio[i]);
	}
	return result;
}
