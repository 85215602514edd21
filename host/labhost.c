/*
 * labhost play FILE...: plays class scripts through the asking and the
 * answering call, or through qg_lab_answer where they have lab keys, prints
 * every exchange and every PIN that is sealed, and says where one went otherwise
 * than the script expects. The last line is 'lessons: N passed, M failed',
 * counted in exchanges and sealed PINs.
 *
 * labhost record FILE: writes the script to stdout with what the calls do
 * today in its `asks`, `answers` and `sealed` lines, and everything else as it
 * was, but for blanks and carriage returns at the end of a line. A recorded script says
 * what the box does: that it is right, only a reading of the paper says.
 *
 * labhost explain [OPTION]... [COMMAND]: tells of one command, field by field,
 * what the box makes of it; explain.h says how.
 *
 * The form of a script is told in script.h. All of a script is read before
 * anything is played or recorded, so it must be a file that can be read twice.
 * Where a line of any of them is malformed,
 * nothing is: 'FILE:LINE: what is wrong' goes to stderr. Status 0: all went as
 * expected; 1: something did not, or it could not be printed whole; 2: a script
 * or the words were malformed.
 */
#include <stdio.h>
#include <string.h>

#include "explain.h"
#include "lab_keys.h"
#include "player.h"
#include "script.h"

#define STATUS_FAILED 1
#define STATUS_MALFORMED 2

struct score {
	unsigned passed;
	unsigned failed;
};

/* A script is long, and one is read at a time. */
static struct script script;

static void tell_fault(const char *path)
{
	fprintf(stderr, "%s:%u: ", path, script.line);
	script_show_fault(stderr, &script);
	putc('\n', stderr);
}

/* Whether a script is well formed from its first line to its last. */
static bool check(const char *path, bool may_be_open)
{
	enum script_step step;

	if (!script_open(&script, path, may_be_open)) {
		fprintf(stderr, "%s: the file cannot be opened\n", path);
		return false;
	}
	do
		step = script_next(&script);
	while (step != SCRIPT_END && step != SCRIPT_FAULT);
	if (step == SCRIPT_FAULT)
		tell_fault(path);
	script_close(&script);
	return step == SCRIPT_END;
}

/* Plays what a line is the last of, under its name. */
static void play_step(const char *path, const char *name,
	bool (*play_it)(const struct script_exchange *e), struct score *score)
{
	printf("%s:%u: %s\n", path, script.line, name);
	if (play_it(&script.now))
		score->passed++;
	else
		score->failed++;
	putchar('\n');
}

static void play_exchange(const char *path, struct score *score)
{
	const char *name = script.now.name;

	play_step(path, name[0] != '\0' ? name : "without a name", player_play, score);
}

/* A script that was well formed when it was checked is not any more. */
static bool tell_changed(const char *path)
{
	fprintf(stderr, "%s: it reads otherwise than before: it must be a file that stays as it is\n", path);
	return false;
}

/* Plays a script that was checked. False: it has become another since. */
static bool play_file(const char *path, struct score *score)
{
	enum script_step step;

	if (!script_open(&script, path, false))
		return tell_changed(path);
	do {
		step = script_next(&script);
		if (step == SCRIPT_SEALED)
			play_step(path, "a PIN is sealed", lab_keys_seal, score);
		if (step == SCRIPT_ANSWERS)
			play_exchange(path, score);
	} while (step != SCRIPT_END && step != SCRIPT_FAULT);
	script_close(&script);
	return step == SCRIPT_END || tell_changed(path);
}

static int play(char **paths, int len)
{
	struct score score = { 0, 0 };
	bool well_formed = true;

	/* every malformed script is told, and not the first alone */
	for (int i = 0; i < len; i++)
		if (!check(paths[i], false))
			well_formed = false;
	if (!well_formed)
		return STATUS_MALFORMED;
	for (int i = 0; i < len; i++)
		if (!play_file(paths[i], &score))
			score.failed++;
	printf("lessons: %u passed, %u failed\n", score.passed, score.failed);
	return score.failed == 0 && score.passed > 0 ? 0 : STATUS_FAILED;
}

/* Writes the line that was read, with another expectation where it has one. */
static void record_line(enum script_step step)
{
	bool expects = step == SCRIPT_ASKS || step == SCRIPT_ANSWERS || step == SCRIPT_SEALED;
	size_t kept = expects ? (size_t)(script.rest - script.text) : strlen(script.text);

	fwrite(script.text, 1, kept, stdout);
	if (step == SCRIPT_SEALED)
		lab_keys_write_sealed(&script.now);
	if (step == SCRIPT_ASKS)
		player_write_asked(&script.now);
	if (step == SCRIPT_ANSWERS)
		player_write_answered(&script.now);
	putchar('\n');
}

static int record(const char *path)
{
	if (!check(path, true))
		return STATUS_MALFORMED;
	enum script_step step = SCRIPT_FAULT;
	if (script_open(&script, path, true)) {
		step = script_next(&script);
		while (step != SCRIPT_END && step != SCRIPT_FAULT) {
			record_line(step);
			step = script_next(&script);
		}
		script_close(&script);
	}
	if (step != SCRIPT_END) {
		tell_changed(path);
		return STATUS_FAILED;
	}
	return 0;
}

static int run(int argc, char **argv)
{
	if (argc >= 3 && strcmp(argv[1], "play") == 0)
		return play(argv + 2, argc - 2);
	if (argc == 3 && strcmp(argv[1], "record") == 0)
		return record(argv[2]);
	if (argc >= 2 && strcmp(argv[1], "explain") == 0)
		return explain(argv + 2, argc - 2) ? 0 : STATUS_MALFORMED;
	fprintf(stderr, "usage: labhost play FILE...\n"
		"       labhost record FILE\n"
		"       labhost explain [OPTION]... [COMMAND]\n");
	return STATUS_MALFORMED;
}

int main(int argc, char **argv)
{
	int status = run(argc, argv);

	/* a full disk cuts what was printed, and nothing else tells of it */
	if (fflush(stdout) != 0 || ferror(stdout)) {
		fputs("labhost: it cannot be printed whole\n", stderr);
		return STATUS_FAILED;
	}
	return status;
}
