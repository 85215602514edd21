#include "names.h"

#include <stdio.h>
#include <string.h>

#include "colour.h"
#include "name_words.h"

#define FIELDS 12

/* The format's number, in every table. */
#define FORMAT_FIELD 5

struct field_words {
	const char *name;
	const char *wanted;
	void (*mean)(const struct names_of *of, char words[NAMES_ROOM]);
};

static const char two_keys[] = "U and 32 hex, or T and 48 hex; of type FFF, S and a key block";
static const char any_key[] = "U and 32 hex, T and 48 hex, or S and a key block";

#define PIN_BLOCK { "PIN block", "16 hex characters, letters in capitals", mean_pin_block }
#define FORMAT { "format", "two digits: 01 03 05 34 35 or 47", mean_format }
#define CHECK { "check length", "two digits, 04 to 12", mean_check }
#define ACCOUNT { "account", "12 digits", mean_account }
#define TABLE { "table", "16 digits", mean_table }
#define VALIDATION \
	{ "validation data", "12 characters, eleven hex and one N; or P and 16 hex", mean_validation }
#define LMK { "LMK id", "% and 00 to 09", mean_lmk }
#define TRAILER { "trailer", "19 hex and 0 to 32 printable characters", mean_trailer }

/* "The BK command, field after field". */
static const struct field_words of_bk[FIELDS] = {
	{ "key type", "001, 002 or FFF", mean_key_type },
	{ "PIN key", two_keys, mean_key },
	{ "PVK", two_keys, mean_key },
	PIN_BLOCK, FORMAT, CHECK, ACCOUNT, TABLE, VALIDATION,
	{ "weak PINs", "; and a count of two digits; unless 00, a length of 04 to 12 and the list",
		mean_weak },
	LMK, TRAILER,
};

/* DA and EA, by their tables in source document 003. */
static const struct field_words of_verification[FIELDS] = {
	{ "PIN key", any_key, mean_key },
	{ "PVK", any_key, mean_key },
	{ "maximum length", "12", mean_maximum },
	PIN_BLOCK, FORMAT, CHECK, ACCOUNT, TABLE, VALIDATION,
	{ "offset", "12 characters: 4 to 12 digits, then only F", mean_offset },
	LMK, TRAILER,
};

/* What the 00 of a command is. */
enum done {
	OFFSET,
	VERDICT,
};

/* The PIN key and the PVK. */
#define KEYS 2

#define PIN_KEY(usages) "usage " usages ", algorithm T, mode B, D or N"
#define PVK(modes) "usage V1, algorithm T, mode " modes

struct command_words {
	const char *code;
	const char *words;
	enum done done;
	const struct field_words *fields;
	uint32_t pin_key;        /* the number of its field; the PVK's follows */
	const char *uses[KEYS];  /* what is wanted of their key blocks */
	const char *restricted;  /* what is wanted as a format where restricted is yes; NULL: the same */
};

static const struct command_words commands[] = {
	{ "BK", "makes the offset of a terminal PIN", OFFSET, of_bk,
		2, { PIN_KEY("P0, 71 or 72"), PVK("C, G or N") },
		"two digits: 01 or 47, since restricted is yes" },
	{ "DA", "verifies a PIN under a terminal key", VERDICT, of_verification,
		1, { PIN_KEY("P0 or 71"), PVK("C, V or N") }, NULL },
	{ "EA", "verifies a PIN under a zone key", VERDICT, of_verification,
		1, { PIN_KEY("P0 or 72"), PVK("C, V or N") }, NULL },
};

static const struct command_words *command_of(const struct fields_sent *sent)
{
	size_t header = sent->settings.header;

	if (sent->len < FIELDS_CODE || header > sent->len - FIELDS_CODE)
		return NULL;
	for (size_t i = 0; i < sizeof commands / sizeof commands[0]; i++)
		if (memcmp(commands[i].code, sent->at + header, FIELDS_CODE) == 0)
			return &commands[i];
	return NULL;
}

static const struct field_words *words_of(const struct fields_sent *sent, uint32_t number)
{
	const struct command_words *command = command_of(sent);

	return command != NULL && number >= 1 && number <= FIELDS ? &command->fields[number - 1] : NULL;
}

const char *names_command(const struct fields_sent *sent)
{
	const struct command_words *command = command_of(sent);

	return command != NULL ? command->words : NULL;
}

bool names_is_verdict(const struct fields_sent *sent)
{
	const struct command_words *command = command_of(sent);

	return command != NULL && command->done == VERDICT;
}

uint32_t names_count(const struct fields_sent *sent)
{
	return command_of(sent) != NULL ? FIELDS : 0;
}

const char *names_field(const struct fields_sent *sent, uint32_t number)
{
	const struct field_words *words = words_of(sent, number);

	return words != NULL ? words->name : NULL;
}

void names_meaning(const struct fields_sent *sent, const struct fields_one *field,
	char words[NAMES_ROOM])
{
	const struct field_words *of = words_of(sent, field->number);
	struct names_of what = { &sent->settings, sent->at + field->place, field->len };

	words[0] = '\0';
	if (of != NULL)
		of->mean(&what, words);
}

void names_show_place(const struct fields_sent *sent, const qg_reply *refusal, int indent)
{
	const char *name = names_field(sent, refusal->field);

	printf("%*s%sat %u, field %u", indent, "", colour_fault(), (unsigned)refusal->place,
		(unsigned)refusal->field);
	if (name != NULL)
		printf(", %s", name);
	else if (refusal->place < sent->len)
		printf(": left over");
	else
		printf(sent->has_lab_keys ? ": a lab key has neither 16 bytes nor 24" :
			": a block of the key box is not 8 bytes");
	if (fields_disagree(sent, refusal))
		printf(": the LMK ids disagree, and this is the last");
	printf("%s\n", colour_plain());
}

/* What is wanted of the key block that a refusal is about, or NULL where it is
 * about none: another field, another kind of key, or the letter itself. */
static const char *uses_wanted(const struct command_words *command, const struct fields_sent *sent,
	const qg_reply *refusal)
{
	uint32_t key = refusal->field - command->pin_key;

	if (refusal->field < command->pin_key || key >= KEYS || !fields_letter_is_taken(sent, refusal))
		return NULL;
	return sent->at[refusal->place] == 'S' ? command->uses[key] : NULL;
}

void names_show_wanted(const struct fields_sent *sent, const qg_reply *refusal, int indent)
{
	static const char wanted[] = "wanted: ";
	const struct command_words *command = command_of(sent);
	const struct field_words *words = words_of(sent, refusal->field);

	if (words == NULL || fields_disagree(sent, refusal))
		return;
	const char *uses = uses_wanted(command, sent, refusal);
	printf("%*s%s", indent, "", wanted);
	if (uses != NULL)
		printf("a key block, printable to its length: version 0 or 1, length 0016 to 0512,\n"
			"%*s%s, LMK id 00 to 09\n", indent + (int)strlen(wanted), "", uses);
	else if (refusal->field == FORMAT_FIELD && sent->settings.restricted != 0 &&
		command->restricted != NULL)
		printf("%s\n", command->restricted);
	else
		printf("%s\n", words->wanted);
}
