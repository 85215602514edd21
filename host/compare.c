/*
 * compare FILE [EXPECTED]: replays a case file against the archive. Each case
 * is tried with its runs before a guard and again behind one; it passes where
 * both trials give the expected number, count, output, place and field and leave
 * every other byte alone. EXPECTED is the number of cases that the file must
 * have. Behind the cases it tells how often each call was to answer each number,
 * and how often each command call was to point at each field, at a place in no
 * field, and at nothing. The last line is 'compare: N passed, M failed'; a fault
 * of the file, another number of cases included, counts as one more that failed.
 */
#include <errno.h>
#include <inttypes.h>
#include <stdio.h>
#include <stdlib.h>

#include "calls.h"
#include "cases.h"
#include "trial.h"

/* How many failed cases are shown in full. */
#define SHOWN 5

/* The paper's numbers have at most three figures. */
#define NUMBERS 1000

/* A command has fewer fields. */
#define FIELDS 100

/* A call's code is a byte. */
#define CODES 256

/* What the cases of a call point at. */
struct pointed {
	uint64_t fields[FIELDS];  /* of 0: at a place, and in no field */
	uint64_t nothing;
};

struct score {
	uint64_t passed;
	uint64_t failed;
	uint64_t tally[CODES][NUMBERS];
	struct pointed pointed[CODES];
};

static void show_bytes(const char *name, const uint8_t *bytes, size_t len)
{
	printf("  %-10s %5zu bytes:", name, len);
	for (size_t i = 0; i < len; i++)
		printf(" %02X", bytes[i]);
	putchar('\n');
}

static void show_arguments(const struct call *call, const struct call_case *one)
{
	for (size_t i = 0; i < one->numbers_len; i++)
		printf("  %-10s %" PRIu64 "\n", call->numbers[i].name, one->numbers[i]);
	for (size_t i = 0; i < one->runs_len; i++)
		show_bytes(call->runs[i], one->runs[i].bytes, one->runs[i].len);
	if (one->has_out)
		show_bytes("lent", one->before.bytes, one->before.len);
}

/* Of an older file place and field are not held, and not shown. */
static void show_reply(const char *name, qg_reply reply, bool points)
{
	printf("  %-10s number %02" PRIu32 ", written %" PRIu32, name,
		reply.number, reply.written);
	if (points)
		printf(", place %" PRIu32 ", field %" PRIu32, reply.place, reply.field);
	putchar('\n');
}

static void show_answers(const struct call_case *one, const struct trial *trial)
{
	qg_reply expected = { one->number, one->written, one->place, one->field };

	show_reply("expected", expected, one->points);
	if (one->has_out)
		show_bytes("expected", one->after.bytes, one->after.len);
	if (trial->harm == HARM_STOPPED)
		printf("  got        signal %d\n", trial->signal);
	else
		show_reply("got", trial->reply, one->points);
	if (one->has_out)
		show_bytes("got", trial->out, one->before.len);
}

static const char *harm_in_words(enum harm harm)
{
	switch (harm) {
	case HARM_NONE: break;
	case HARM_STOPPED: return "the call was stopped at";
	case HARM_INPUT: return "the call changed";
	case HARM_MARGIN: return "the call wrote beside";
	case HARM_NUMBER: return "another";
	case HARM_WRITTEN: return "another count of";
	case HARM_OUTPUT: return "other bytes in";
	case HARM_PLACE: return "another";
	case HARM_FIELD: return "another";
	}
	return "no harm";
}

static void show_failure(uint64_t place, const struct call *call,
	const struct call_case *one, enum lent_side side,
	const struct trial *trial)
{
	printf("case %" PRIu64 ", %s, runs %s a guard: %s %s\n", place, call->name,
		side == LENT_BEFORE_GUARD ? "before" : "behind",
		harm_in_words(trial->harm), trial->what);
	show_arguments(call, one);
	show_answers(one, trial);
}

static void tally(const struct call_case *one, struct score *score)
{
	struct pointed *pointed = &score->pointed[one->code];

	score->tally[one->code][one->number]++;
	if (!one->points)
		return;
	if (one->place == 0 && one->field == 0)
		pointed->nothing++;
	else
		pointed->fields[one->field]++;
}

/* Tries a case both ways and scores it. */
static void replay(uint64_t place, const struct call *call,
	const struct call_case *one, struct score *score)
{
	static const enum lent_side sides[] = { LENT_BEFORE_GUARD, LENT_BEHIND_GUARD };
	static struct trial trial;
	bool passed = true;

	for (size_t i = 0; i < 2 && passed; i++) {
		passed = trial_run(call, one, sides[i], &trial);
		if (!passed && score->failed < SHOWN)
			show_failure(place, call, one, sides[i], &trial);
	}
	tally(one, score);
	if (passed)
		score->passed++;
	else
		score->failed++;
}

/* Why a case cannot be replayed, or NULL. */
static const char *unfit(const struct call *call, const struct call_case *one)
{
	if (call == NULL)
		return "no call has this code";
	if (!call_fits(call, one))
		return "the case has not what its call is handed";
	if (one->number >= NUMBERS)
		return "the paper has no number of four figures";
	if (one->field >= FIELDS)
		return "no command has a field of three figures";
	return NULL;
}

/* Replays every case of the file. What is wrong with the file, or NULL. */
static const char *replay_all(struct case_file *file, struct score *score)
{
	struct call_case one;

	while (cases_next(file, &one)) {
		const struct call *call = call_of(one.code);
		const char *fault = unfit(call, &one);

		if (fault != NULL)
			return fault;
		replay(file->count, call, &one, score);
	}
	return file->fault;
}

static void show_tally(const struct score *score)
{
	for (size_t i = 0; i < calls_len; i++)
		for (unsigned number = 0; number < NUMBERS; number++) {
			uint64_t count = score->tally[calls[i].code][number];

			if (count > 0)
				printf("%s %02u %" PRIu64 "\n", calls[i].name, number, count);
		}
}

/* A call whose cases all point at nothing is none of a command, and has no
 * lines. */
static void show_pointed_of(const char *name, const struct pointed *pointed)
{
	bool points = false;

	for (unsigned field = 1; field < FIELDS; field++)
		if (pointed->fields[field] > 0) {
			printf("%s field %02u %" PRIu64 "\n", name, field, pointed->fields[field]);
			points = true;
		}
	if (points || pointed->fields[0] > 0) {
		printf("%s no field, a place %" PRIu64 "\n", name, pointed->fields[0]);
		printf("%s nothing %" PRIu64 "\n", name, pointed->nothing);
	}
}

static void show_pointed(const struct score *score)
{
	for (size_t i = 0; i < calls_len; i++)
		show_pointed_of(calls[i].name, &score->pointed[calls[i].code]);
}

static int finish(const struct score *score)
{
	show_tally(score);
	show_pointed(score);
	printf("compare: %" PRIu64 " passed, %" PRIu64 " failed\n", score->passed,
		score->failed);
	return score->failed == 0 && score->passed > 0 ? 0 : 1;
}

/* Reads a number of cases: decimal digits alone, and not zero. */
static bool read_count(const char *word, uint64_t *count)
{
	char *end;

	if (word[0] < '0' || word[0] > '9')
		return false;
	errno = 0;
	*count = strtoull(word, &end, 10);
	return errno == 0 && *end == '\0' && *count > 0;
}

/* Replays a file. False at a fault of the file, which is scored as a failure. */
static bool replay_file(const char *path, struct case_file *file,
	struct score *score)
{
	const char *fault = cases_open(file, path) ? replay_all(file, score) : file->fault;

	if (fault != NULL) {
		/* a case that could not be read is not counted yet */
		uint64_t place = file->count + (file->fault != NULL ? 1 : 0);

		printf("%s, at case %" PRIu64 ": %s\n", path, place, fault);
		score->failed++;
	}
	cases_close(file);
	return fault == NULL;
}

/* A file of fewer cases, each of them right, would pass unseen. */
static void hold_count(const char *path, uint64_t count, uint64_t expected,
	struct score *score)
{
	printf("%s: %" PRIu64 " cases, %" PRIu64 " asked for\n", path, count, expected);
	if (count != expected)
		score->failed++;
}

int main(int argc, char **argv)
{
	static struct score score;
	struct case_file file;
	uint64_t expected = 0;

	if (argc < 2 || argc > 3 || (argc == 3 && !read_count(argv[2], &expected))) {
		fprintf(stderr, "usage: compare FILE [EXPECTED]\n");
		return 2;
	}
	if (!trial_open()) {
		fprintf(stderr, "compare: no guarded memory could be mapped\n");
		return 2;
	}
	if (replay_file(argv[1], &file, &score) && argc == 3)
		hold_count(argv[1], file.count, expected, &score);
	return finish(&score);
}
