/*
 * Times the asking and the answering call beside the reference's, in one run
 * and with one loop, and measures the stack that they take.
 *
 *   bench          ns a call, and the ratio
 *   bench ratio    the ratio alone, as under an emulator
 *
 * Its status is zero where both cores answer alike and the goals are met: less
 * than 8 KiB of stack and, where the times are native, no ratio over 1. An
 * emulator is slow at vector instructions, which our code has and the
 * reference's hardly: there a ratio tells of the emulator.
 */
#include "stack.h"
#include "timing.h"

#include <stdio.h>
#include <stdlib.h>
#include <string.h>

#define MOST_STACK 8192u

static const char *const call_names[CALLS] = { [ASK] = "ask", [ANSWER] = "answer" };

/* What was met over all loads. */
struct summary {
	bool shows_ns;
	double highest_ratio;
	size_t stack[CORES];
};

/* A call over a load, to be made on a stack of its own. */
struct trip {
	enum core core;
	enum call call;
	const struct load *load;
};

static void make_trip(void *of)
{
	const struct trip *trip = of;
	uint8_t out[ROOM];

	for (size_t i = 0; i < trip->load->count; i++)
		make_call(trip->core, trip->call, trip->load, &trip->load->commands[i], out);
}

static void measure_stack(enum call call, const struct load *load, struct summary *summary)
{
	for (int core = 0; core < CORES; core++) {
		struct trip trip = { (enum core)core, call, load };
		size_t used = stack_used(make_trip, &trip);

		if (used > summary->stack[core])
			summary->stack[core] = used;
	}
}

static void show(const struct load *load, enum call call, const struct figures *found,
	const struct summary *summary)
{
	printf("%-34s %-6s ", load->name, call_names[call]);
	if (summary->shows_ns)
		printf("%8.0f %10.0f ", found->ns[OURS], found->ns[REFERENCE]);
	printf("%6.2f\n", found->ratio);
}

static bool go_through(const struct load *load, struct summary *summary)
{
	for (int n = 0; n < CALLS; n++) {
		enum call call = (enum call)n;

		if (!answered_alike(call, load)) {
			printf("%s, %s: not answered alike, or not as meant\n", load->name, call_names[call]);
			return false;
		}
		const struct figures found = measured(call, load);
		show(load, call, &found, summary);
		measure_stack(call, load, summary);
		if (found.ratio > summary->highest_ratio)
			summary->highest_ratio = found.ratio;
	}
	return true;
}

/* How our time grows from the shortest command on. */
static void show_growth(const struct load *longer)
{
	const struct load *shortest = &growth[0];

	printf("from %zu to %s: length times %.1f", shortest->commands->len, longer->name,
		(double)longer->commands->len / (double)shortest->commands->len);
	for (int call = 0; call < CALLS; call++)
		printf(", time to %s times %.1f", call_names[call],
			times_as_long((enum call)call, longer, shortest));
	printf("\n");
}

int main(int argc, char **argv)
{
	struct summary summary = { .shows_ns = argc < 2 || strcmp(argv[1], "ratio") != 0 };

	loads_make();
	cores_begin();
	printf("%-34s %-6s %s  ratio\n", "load", "call", summary.shows_ns ? " ours ns  their ns" : "");
	for (size_t i = 0; i < LOADS; i++)
		if (!go_through(&loads[i], &summary))
			return EXIT_FAILURE;
	for (size_t i = 0; i < GROWTH; i++)
		if (!go_through(&growth[i], &summary))
			return EXIT_FAILURE;
	for (size_t i = 1; i < GROWTH; i++)
		show_growth(&growth[i]);
	printf("stack of these calls: ours %zu bytes, the reference's %zu\n", summary.stack[OURS], summary.stack[REFERENCE]);
	printf("highest ratio: %.2f\n", summary.highest_ratio);
	bool fast = !summary.shows_ns || summary.highest_ratio <= 1.0;
	return fast && summary.stack[OURS] < MOST_STACK ? EXIT_SUCCESS : EXIT_FAILURE;
}
