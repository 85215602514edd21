#include "timing.h"

#include "race.h"

/* A core's call over a load. */
struct runner {
	enum core core;
	enum call call;
	const struct load *load;
};

/* So many goes through the load. The buffer for the answer is not cleared between
 * them: each call writes what it writes. */
static void go(const void *with, size_t goes)
{
	static volatile uint32_t kept; /* so that no call is left out as unused */
	const struct runner *runner = with;
	const struct load *load = runner->load;
	uint8_t out[ROOM];
	uint32_t sum = 0;

	for (size_t n = 0; n < goes; n++)
		for (size_t i = 0; i < load->count; i++)
			sum += make_call(runner->core, runner->call, load, &load->commands[i], out).number;
	kept = sum;
	(void)kept;
}

/* A figure is a call's, and a go is one through all commands of a load. */
static struct figures raced(const struct runner *one, const struct runner *other)
{
	const struct racer racers[] = { { go, one }, { go, other } };
	const struct result found = race(racers, 2);
	const double calls = (double)one->load->count, others = (double)other->load->count;

	return (struct figures){ { found.ns[0] / calls, found.ns[1] / others },
		found.ratio[1] * others / calls };
}

struct figures measured(enum call call, const struct load *load)
{
	const struct runner ours = { OURS, call, load }, theirs = { REFERENCE, call, load };

	return raced(&ours, &theirs);
}

double times_as_long(enum call call, const struct load *load, const struct load *other)
{
	const struct runner one = { OURS, call, load }, two = { OURS, call, other };

	return raced(&one, &two).ratio;
}
