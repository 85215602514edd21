#include "explain.h"

#include <stdio.h>
#include <string.h>

#include "text.h"

/* Text that is longer holds no command that has a frame. */
#define INPUT 65536

/* An option: it says what the script's line of the same word says. */
struct option {
	const char *word;
	int values;
};

enum { HEADER, RESTRICTED, VARIABLE, BLOCK, ENCIPHERED, PARITY, PINKEY, PVK, LINES,
	FROM_FILE = LINES, OPTIONS };

static const struct option options[OPTIONS] = {
	[HEADER] = { "--header", 1 },
	[RESTRICTED] = { "--restricted", 1 },
	[VARIABLE] = { "--variable", 1 },
	[BLOCK] = { "--block", 1 },
	[ENCIPHERED] = { "--enciphered", 1 },
	[PARITY] = { "--parity", 2 },
	[PINKEY] = { "--pinkey", 1 },
	[PVK] = { "--pvk", 1 },
	[FROM_FILE] = { "--file", 1 },
};

/* The words apart: where the values of each option stand, and the command. */
struct words {
	char **given[OPTIONS];
	const char *command;
};

static bool refuse(const char *word, const char *what)
{
	fputs("labhost explain: ", stderr);
	if (word != NULL) {
		text_show(stderr, (const uint8_t *)word, strlen(word));
		fputs(": ", stderr);
	}
	fprintf(stderr, "%s\n", what);
	return false;
}

/* What may have been meant where no command is found. */
#define MEANT "; a command that begins with # or with a script's word stands behind `command `"

/* Tells what is wrong with a line. Before there is a command the line may have
 * been meant as one: then its word is a script's by chance. */
static bool refuse_line(const struct script *script)
{
	fprintf(stderr, "labhost explain: line %u: ", script->line);
	script_show_fault(stderr, script);
	fprintf(stderr, "%s\n", script->now.command_given ? "" : MEANT);
	return false;
}

/* Takes a line that is put together from a word and what follows it, in one part
 * or two. */
static bool take_words(struct script *script, const char *word, const char *rest, const char *more)
{
	static char line[INPUT + SCRIPT_NAME];
	int len = snprintf(line, sizeof line, "%s %s%s%s", word, rest, *more != '\0' ? " " : "", more);

	if (len < 0 || (size_t)len >= sizeof line) {
		script->fault = "this is longer than the place for it";
		return false;
	}
	return script_take(script, line) != SCRIPT_FAULT;
}

/* Takes a line of a script. The first may be a command by itself. */
static bool take_line(struct script *script, const char *line)
{
	line += strspn(line, TEXT_BLANKS);
	if (script->exchanges > 0 && *line != '\0' && *line != '#')
		return refuse(NULL,
			"one exchange is explained at a time, and behind its answers line more follows");
	if (script_take(script, line) != SCRIPT_FAULT)
		return true;
	if (script->word == NULL || script->begun)
		return refuse_line(script);
	script->word = NULL;
	return take_words(script, "command", line, "") || refuse_line(script);
}

/* Takes text line by line, each without its end and the blanks before that. */
static bool take_text(struct script *script, char *text)
{
	while (*text != '\0') {
		size_t len = strcspn(text, "\n");
		char *next = text + len + (text[len] == '\n');

		text[text_trimmed(text, len)] = '\0';
		script->line++;
		if (!take_line(script, text))
			return false;
		text = next;
	}
	return true;
}

static bool take_stream(struct script *script, FILE *stream, const char *name)
{
	static char text[INPUT];
	size_t len = fread(text, 1, INPUT, stream);

	if (ferror(stream))
		return refuse(name, "it cannot be read");
	if (len == INPUT)
		return refuse(name, "it is longer than 65535 characters");
	if (memchr(text, '\0', len) != NULL)
		return refuse(name, "a byte 00 stands in it: write that \\x00");
	text[len] = '\0';
	return take_text(script, text);
}

static bool take_file(struct script *script, const char *path)
{
	FILE *stream = fopen(path, "rb");

	if (stream == NULL)
		return refuse(path, "the file cannot be opened");
	bool taken = take_stream(script, stream, path);
	fclose(stream);
	return taken;
}

static bool take_argument(struct script *script, const char *words)
{
	static char text[INPUT];
	size_t len = strlen(words);

	if (len >= INPUT)
		return refuse(NULL, "the command is longer than 65535 characters");
	memcpy(text, words, len + 1);
	return take_text(script, text);
}

static int option_of(const char *word)
{
	int i = 0;

	while (i < OPTIONS && strcmp(options[i].word, word) != 0)
		i++;
	return i;
}

/* Takes the words apart. */
static bool split(char **words, int len, struct words *found)
{
	bool plain = false;

	for (int i = 0; i < len; i++) {
		int option = plain ? OPTIONS : option_of(words[i]);

		if (!plain && strcmp(words[i], "--") == 0) {
			plain = true;
		} else if (option < OPTIONS) {
			if (found->given[option] != NULL)
				return refuse(words[i], "it is given twice");
			if (len - i - 1 < options[option].values)
				return refuse(words[i], "what it says must follow");
			found->given[option] = words + i + 1;
			i += options[option].values;
		} else if (!plain && strncmp(words[i], "--", 2) == 0) {
			return refuse(words[i], "there is no such option");
		} else if (found->command != NULL) {
			return refuse(words[i],
				"a command is one word: where it has blanks, put it in quotes");
		} else {
			found->command = words[i];
		}
	}
	return true;
}

static bool take_source(struct script *script, const struct words *found)
{
	if (found->given[FROM_FILE] == NULL)
		return found->command != NULL ? take_argument(script, found->command) :
			take_stream(script, stdin, "standard input");
	if (found->command != NULL)
		return refuse(NULL, "a command and a file are given: one of them will do");
	return take_file(script, found->given[FROM_FILE][0]);
}

/* Takes an option as the script's line of its word. A line's fault may begin
 * with that word; the option's own is enough. */
static bool take_option(struct script *script, const struct option *option, char **values)
{
	const char *word = option->word + strlen("--");
	size_t len = strlen(word);

	if (take_words(script, word, values[0], option->values > 1 ? values[1] : ""))
		return true;
	bool twice = strncmp(script->fault, word, len) == 0;
	return refuse(option->word, script->fault + (twice ? len + strlen(": ") : 0));
}

/* Whether there is all that an explanation needs. */
static bool hold_whole(const struct script_exchange *e, const struct words *found)
{
	if (!e->command_given)
		return refuse(NULL, "no command is given" MEANT);
	if (e->block.given != e->enciphered.given)
		return refuse(NULL, e->block.given ?
			"a block is given: --enciphered or an enciphered line must go with it" :
			"enciphered is given: --block or a block line must go with it");
	if (e->pin_key.given != e->pvk.given)
		return refuse(NULL, e->pvk.given ?
			"a pvk is given: --pinkey or a pinkey line must go with it" :
			"a pinkey is given: --pvk or a pvk line must go with it");
	if (script_is_lab(e) && (found->given[BLOCK] != NULL || found->given[ENCIPHERED] != NULL ||
		found->given[PARITY] != NULL))
		return refuse(NULL, "lab keys are given, and no key box is asked: "
			"--block, --enciphered and --parity have no place beside them");
	if (found->given[PARITY] != NULL && !e->block.given)
		return refuse(NULL, "--parity goes with --block and --enciphered");
	return true;
}

bool explain_read(struct script *script, char **words, int len)
{
	struct words found = { { NULL }, NULL };

	script_begin(script, true);
	script->alone = true;
	if (!split(words, len, &found) || !take_source(script, &found))
		return false;
	/* an option says more than a line, also behind the lines that end an exchange, and
	 * behind a seal line that is the last */
	script->now.asks.given = script->now.answers.given = script->now.seal.given = false;
	for (int i = 0; i < LINES; i++)
		if (found.given[i] != NULL && !take_option(script, &options[i], found.given[i]))
			return false;
	return hold_whole(&script->now, &found);
}
