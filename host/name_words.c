#include "name_words.h"

#include <stdio.h>
#include <string.h>

/* Letters or digits with what they stand for. */
struct word {
	const char *text;
	const char *means;
};

/* The names that source document 000, 11.2, has for the formats. */
static const struct word formats[] = {
	{ "01", "ISO 9564-1 format 0, ANSI X9.8" },
	{ "03", "Diebold and IBM ATM" },
	{ "05", "ISO 9564-1 format 1" },
	{ "34", "ISO 9564-1 format 2, EMV" },
	{ "35", "Mastercard Pay Now and Pay Later" },
	{ "47", "ISO 9564-1 format 3, ANSI X9.8" },
	{ "", "" },
};

static const struct word key_types[] = {
	{ "001", "zone key; both keys with U or T" },
	{ "002", "terminal key; both keys with U or T" },
	{ "FFF", "key blocks; both keys with S" },
	{ "", "" },
};

/* Of a key block, by source document 000, 6.4.3.1. */
static const struct word usages[] = {
	{ "P0", "PIN key" },
	{ "71", "terminal PIN key" },
	{ "72", "zone PIN key" },
	{ "V1", "PVK, IBM 3624" },
	{ "", "" },
};

static const struct word algorithms[] = {
	{ "T", "triple DES" },
	{ "", "" },
};

static const struct word modes[] = {
	{ "B", "enciphers and deciphers" },
	{ "D", "deciphers" },
	{ "C", "makes and verifies" },
	{ "G", "makes" },
	{ "V", "verifies" },
	{ "N", "no restriction" },
	{ "", "" },
};

/* What stands in a table beside the text that a field's characters begin with. */
static const char *means(const struct word *table, const uint8_t *at)
{
	while (memcmp(table->text, at, strlen(table->text)) != 0)
		table++;
	return table->means;
}

void mean_key_type(const struct names_of *of, char words[NAMES_ROOM])
{
	snprintf(words, NAMES_ROOM, "%s", means(key_types, of->at));
}

/* Bytes count from behind the letter: 0 version, 1-4 length, 5-6 usage, 7
 * algorithm, 8 mode, 14-15 LMK id. */
static void mean_key_block(const uint8_t *block, char words[NAMES_ROOM])
{
	const char *text = (const char *)block;

	snprintf(words, NAMES_ROOM,
		"key block, version %.1s, length %.4s, usage %.2s (%s), algorithm %.1s (%s), "
		"mode %.1s (%s), LMK id %.2s",
		text, text + 1, text + 5, means(usages, block + 5), text + 7,
		means(algorithms, block + 7), text + 8, means(modes, block + 8), text + 14);
}

void mean_key(const struct names_of *of, char words[NAMES_ROOM])
{
	if (of->at[0] == 'S')
		mean_key_block(of->at + 1, words);
	else
		snprintf(words, NAMES_ROOM, "%s", of->at[0] == 'U' ?
			"double-length key in hex" : "triple-length key in hex");
}

void mean_maximum(const struct names_of *of, char words[NAMES_ROOM])
{
	(void)of;
	snprintf(words, NAMES_ROOM, "maximum PIN length, always 12");
}

void mean_pin_block(const struct names_of *of, char words[NAMES_ROOM])
{
	(void)of;
	snprintf(words, NAMES_ROOM, "as it came, under the PIN key");
}

void mean_format(const struct names_of *of, char words[NAMES_ROOM])
{
	snprintf(words, NAMES_ROOM, "%s", means(formats, of->at));
}

void mean_check(const struct names_of *of, char words[NAMES_ROOM])
{
	const char *digits = (const char *)of->at;
	int zero = digits[0] == '0';

	if (of->settings->variable != 0)
		snprintf(words, NAMES_ROOM,
			"decides nothing: variable is yes, and the offset covers the whole PIN");
	else
		snprintf(words, NAMES_ROOM, "the offset covers the last %.*s digits", 2 - zero,
			digits + zero);
}

void mean_account(const struct names_of *of, char words[NAMES_ROOM])
{
	(void)of;
	snprintf(words, NAMES_ROOM, "card number's last 12, no check digit");
}

void mean_table(const struct names_of *of, char words[NAMES_ROOM])
{
	(void)of;
	snprintf(words, NAMES_ROOM, "the digits that nibbles 0 to F become");
}

void mean_validation(const struct names_of *of, char words[NAMES_ROOM])
{
	snprintf(words, NAMES_ROOM, "%s", of->at[0] == 'P' ?
		"the block for the key box as it stands" : "N: the last five account digits");
}

void mean_weak(const struct names_of *of, char words[NAMES_ROOM])
{
	const char *text = (const char *)of->at;

	/* behind the count 00 stands neither length nor list */
	if (memcmp(text + 1, "00", 2) == 0)
		snprintf(words, NAMES_ROOM, "count 00: none");
	else
		snprintf(words, NAMES_ROOM, "count %.2s, of %.2s digits each", text + 1, text + 3);
}

void mean_offset(const struct names_of *of, char words[NAMES_ROOM])
{
	(void)of;
	snprintf(words, NAMES_ROOM, "the offset presented, filled with F");
}

void mean_lmk(const struct names_of *of, char words[NAMES_ROOM])
{
	snprintf(words, NAMES_ROOM, "under LMK %.2s", (const char *)of->at + 1);
}

void mean_trailer(const struct names_of *of, char words[NAMES_ROOM])
{
	snprintf(words, NAMES_ROOM, "mark 19 hex and %zu characters; comes back with 00 only", of->len - 1);
}
