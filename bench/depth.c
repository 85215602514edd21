/*
 * depth FILE: how deep a stack each call of the C face takes, over the cases of
 * a case file. Its status is zero where every call was met and none takes 8 KiB.
 */
#include "calls.h"
#include "stack.h"

#include <stdio.h>
#include <stdlib.h>
#include <string.h>

#define MOST_STACK 8192u
#define LONGEST_RUN 32768u
#define CODES 256

struct trip {
	const struct call *call;
	struct call_args args;
};

struct depth {
	unsigned long met;
	size_t deepest;
};

static struct depth depths[CODES];

static void make_trip(void *of)
{
	const struct trip *trip = of;

	trip->call->make(&trip->args);
}

static struct lent_run lent(uint8_t *room, const struct case_run *run)
{
	memcpy(room, run->bytes, run->len);
	return (struct lent_run){ room, run->len };
}

static bool measure(const struct call *call, const struct call_case *one)
{
	static uint8_t rooms[CASE_RUNS + 1][LONGEST_RUN];
	struct trip trip = { call, { .numbers = one->numbers } };
	struct depth *depth = &depths[call->code];

	if (one->has_out && one->before.len > LONGEST_RUN)
		return false;
	for (size_t i = 0; i < one->runs_len; i++) {
		if (one->runs[i].len > LONGEST_RUN)
			return false;
		trip.args.runs[i] = lent(rooms[i], &one->runs[i]);
	}
	if (one->has_out)
		trip.args.out = lent(rooms[CASE_RUNS], &one->before);
	size_t used = stack_used(make_trip, &trip);
	depth->met++;
	if (used > depth->deepest)
		depth->deepest = used;
	return true;
}

/* False where the file is malformed, or has what no call is handed. */
static bool measure_all(const char *path)
{
	struct case_file file;
	struct call_case one;
	bool fits = cases_open(&file, path);

	while (fits && cases_next(&file, &one)) {
		const struct call *call = call_of(one.code);
		fits = call != NULL && call_fits(call, &one) && measure(call, &one);
	}
	if (file.fault != NULL)
		fprintf(stderr, "%s: %s\n", path, file.fault);
	fits = fits && file.fault == NULL;
	cases_close(&file);
	return fits;
}

int main(int argc, char **argv)
{
	bool shallow = true;

	if (argc != 2 || !measure_all(argv[1]))
		return EXIT_FAILURE;
	for (size_t i = 0; i < calls_len; i++) {
		const struct depth *depth = &depths[calls[i].code];

		printf("%-16s %5zu bytes of stack at most, over %lu inputs\n", calls[i].name, depth->deepest, depth->met);
		shallow = shallow && depth->met > 0 && depth->deepest < MOST_STACK;
	}
	return shallow ? EXIT_SUCCESS : EXIT_FAILURE;
}
