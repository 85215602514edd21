#include "script_expected.h"

#include <string.h>

#include "fields.h"
#include "meanings.h"
#include "text.h"

#define BLOCK 8

/* A response has at least its code and its number behind the header. */
#define NUMBER 2

/* A place may be as long as the longest command. */
#define PLACE_FIGURES 4

bool script_is_open(const char *rest)
{
	return strcmp(rest, "?") == 0;
}

/* An open expectation can be recorded, but nothing can be held to it. */
const char *script_take_open(const struct script *script)
{
	return script->may_be_open ? NULL : "? can be recorded but not played";
}

/* Moves behind a word and the blanks that follow it, where both are there. */
static bool skip_word(const char **words, const char *word)
{
	size_t len = strlen(word);

	if (strncmp(*words, word, len) != 0)
		return false;
	size_t blanks = strspn(*words + len, TEXT_BLANKS);
	if (blanks > 0)
		*words += len + blanks;
	return blanks > 0;
}

/* Reads what stands behind `at`: the place, `field` and the field's number, and
 * moves behind the blanks that follow. */
static bool read_place(const char **words, struct script_expected *expected)
{
	expected->placed = true;
	if (!text_read_number(words, PLACE_FIGURES, &expected->place) || !skip_word(words, ""))
		return false;
	if (!skip_word(words, SCRIPT_FIELD) || !text_read_number(words, TEXT_FIGURES, &expected->field))
		return false;
	return **words == '\0' || skip_word(words, "");
}

/* Takes what stands behind the number of a refusal. */
static const char *take_refusal(struct script_expected *asks, const char *behind)
{
	if (asks->number == 0 || meaning_of(asks->number) == NULL)
		return "asks: the paper has no refusal of this number";
	if (*behind == '\0')
		return NULL;
	return skip_word(&behind, "") && skip_word(&behind, SCRIPT_AT) && read_place(&behind, asks) &&
		*behind == '\0' ? NULL :
		"asks: behind the number of a refusal stands nothing, or at, a place, field and a number";
}

const char *script_take_asks(struct script *script, const char *rest)
{
	struct script_expected *asks = &script->now.asks;
	struct text_bytes bytes = { asks->bytes, 0, SCRIPT_ROOM };
	const char *behind = rest;

	if (asks->given)
		return "asks: this exchange has such a line already";
	if (!script->now.command_given)
		return "asks: no command line stands before it";
	asks->given = true;
	if (script_is_open(rest))
		return script_take_open(script);
	bool numbered = text_read_number(&behind, TEXT_FIGURES, &asks->number);
	/* no hex has a small letter: what goes on with one says a place */
	if (numbered && (*behind == '\0' || behind[strspn(behind, TEXT_BLANKS)] == SCRIPT_AT[0]))
		return take_refusal(asks, behind);
	asks->number = 0;
	if (text_read_hex(rest, &bytes) != NULL || bytes.len != BLOCK)
		return "asks: a block of 8 bytes in hex must follow, or the number of a refusal";
	asks->len = bytes.len;
	return NULL;
}

/* Takes the number out of an expected response: two digits behind header and
 * code. */
static bool number_within(const qg_settings *settings, struct script_expected *answers)
{
	char digits[NUMBER + 1] = "";

	if (answers->len < settings->header + FIELDS_CODE + NUMBER)
		return false;
	memcpy(digits, answers->bytes + settings->header + FIELDS_CODE, NUMBER);
	return strlen(digits) == NUMBER && text_is_number(digits, &answers->number);
}

static const char *take_response(struct script *script, const char *rest)
{
	size_t word = strlen(SCRIPT_NOTHING);
	struct script_expected *answers = &script->now.answers;
	struct text_bytes bytes = { answers->bytes, 0, SCRIPT_ROOM };

	answers->given = true;
	if (script_is_open(rest))
		return script_take_open(script);
	if (skip_word(&rest, SCRIPT_AT) && !read_place(&rest, answers))
		return "answers: behind at stand a place, field and a number; "
			"a response that begins so is written \\x61t";
	if (strncmp(rest, SCRIPT_NOTHING, word) == 0)
		return text_is_number(rest + word, &answers->number) &&
			(answers->number == 901 || answers->number == 902) ? NULL :
			"answers: behind nothing stands 901 or 902; "
			"a response that begins so is written \\x6Eothing";
	const char *fault = text_read(rest, &bytes);
	answers->len = bytes.len;
	if (fault == NULL && !number_within(&script->now.settings, answers))
		return "answers: a response is header, response code, a two-digit number and what follows";
	return fault;
}

/* Why nobody can answer, or NULL: there are both lab keys, or the key box's
 * answers beside what it was asked. */
static const char *hold_answerer(const struct script_exchange *now)
{
	if (!now->command_given)
		return "answers: no command line stands before it";
	if (script_is_lab(now))
		return NULL;
	if (now->pin_key.given || now->pvk.given)
		return now->pvk.given ? "answers: a pvk line stands before it and no pinkey line" :
			"answers: a pinkey line stands before it and no pvk line";
	if (!now->asks.given)
		return "answers: this exchange has no asks line";
	if (!now->block.given)
		return "answers: no block line stands before it";
	return now->enciphered.given ? NULL : "answers: no enciphered line stands before it";
}

const char *script_take_answers(struct script *script, const char *rest)
{
	const char *fault = script->alone ? NULL : hold_answerer(&script->now);

	return fault != NULL ? fault : take_response(script, rest);
}
