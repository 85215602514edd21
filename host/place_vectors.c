/*
 * Which character, which is request 4: what the command calls point at. The
 * paper's command is cut at every length and changed at every character, and
 * commands with faults that no cut and no one character makes stand in lists,
 * each beside the place that was counted out by hand.
 */
#include "command_vectors.h"

#include <stdio.h>
#include <string.h>

/* Where the fields of the paper's commands begin under HDR1, which has four
 * characters, and behind them the command's length. */
#define PAPER_HEADER 4
#define MOST_FIELDS 12

/* Longer than such a command under any header. */
#define LENT_COMMAND 256

struct layout {
	const char *name;
	const char *command;
	uint32_t pin_key;  /* the number of the PIN key's field; the PVK's is the next */
	uint32_t fields;
	size_t begins[MOST_FIELDS + 1];
};

#define TABLE_FIELD 8

#define VERIFICATION_BEGINS { 6, 39, 72, 74, 90, 92, 94, 106, 122, 134, 146 }

static const struct layout layouts[] = {
	{ "BK", COMMAND, 2, 9, { 6, 9, 42, 75, 91, 93, 95, 107, 123, 135 } },
	{ "DA", VERIFICATION("DA"), 1, 10, VERIFICATION_BEGINS },
	{ "EA", VERIFICATION("EA"), 1, 10, VERIFICATION_BEGINS },
};

/* A command that is refused for one of its fields or its end. */
struct fault {
	const char *source;
	size_t header;
	struct text command;
	uint32_t number;
	struct spot at;
};

/* BK in pieces that the others do not exchange. */
#define BK_DATA(block, account, validation) \
	"HDR1BK" HEX_KEYS block "01" "04" account PAPER_TABLE validation
#define DA_DATA(block, account, validation) \
	"HDR1DA" TWO_KEYS "12" block "01" "04" account PAPER_TABLE validation PAPER_OFFSET

static const struct fault bk_faults[] = {
	{ "request 4, field 1: another type", 4, TEXT(WITH_KEYS("003" HEX_KEY HEX_KEY)), 15, AT(6, 1) },
	{ "request 4, field 1: two characters", 4, TEXT("HDR1BK00"), 15, AT(6, 1) },
	{ "request 4, field 1: header 0", 0, TEXT("BK003"), 15, AT(2, 1) },
	{ "request 4, field 1: header 16", 16, TEXT(HEADER_16 "BK003"), 15, AT(18, 1) },

	{ "request 4, field 2: no letter", 4, TEXT("HDR1BK001"), 15, AT(9, 2) },
	{ "request 4, field 2: another letter", 4, TEXT(WITH_KEYS("001" "X" ZEROS ZEROS HEX_KEY)),
		26, AT(9, 2) },
	{ "request 4, field 2: small hex", 4,
		TEXT(WITH_KEYS("001" "U" ZEROS "000000000000000f" HEX_KEY)), 15, AT(9, 2) },
	{ "request 4, field 2: three characters of length", 4, TEXT("HDR1BKFFFS1001"), 15, AT(9, 2) },
	{ "request 4, field 2: version 2", 4,
		TEXT(WITH_KEYS("FFF" "S2001672TB00N0003" PVK_BLOCK("03"))), 26, AT(9, 2) },
	{ "request 4, field 2: length 0513", 4,
		TEXT(WITH_KEYS("FFF" "S1051372TB00N0003" PVK_BLOCK("03"))), 26, AT(9, 2) },
	{ "request 4, field 2: a block longer than the command", 4,
		TEXT(WITH_KEYS("FFF" "S1051272TB00N0003" PVK_BLOCK("03"))), 15, AT(9, 2) },
	{ "request 4, field 2: its algorithm", 4,
		TEXT(WITH_KEYS("FFF" "S1001672AB00N0003" PVK_BLOCK("03"))), 29, AT(9, 2) },
	{ "request 4, field 2: its LMK id", 4,
		TEXT(WITH_KEYS("FFF" PIN_KEY_BLOCK("10") PVK_BLOCK("03"))), 15, AT(9, 2) },
	{ "request 4, field 2: header 0", 0, TEXT("BK001X"), 26, AT(5, 2) },

	{ "request 4, field 3: no letter", 4, TEXT("HDR1BK001" HEX_KEY), 15, AT(42, 3) },
	{ "request 4, field 3: behind a T key", 4, TEXT(WITH_KEYS("001" LONG_KEY "S" ZEROS ZEROS)),
		26, AT(58, 3) },
	{ "request 4, field 3: behind a key block", 4,
		TEXT(WITH_KEYS("FFF" PIN_KEY_BLOCK("03") "U" ZEROS ZEROS)), 26, AT(26, 3) },
	{ "request 4, field 3: behind a key block of length 20", 4,
		TEXT(WITH_KEYS("FFF" "S1002072TB00N0003more" "S00016P0TN00N0003")), 29, AT(30, 3) },
	{ "request 4, field 3: its LMK id", 4,
		TEXT(WITH_KEYS("FFF" PIN_KEY_BLOCK("03") PVK_BLOCK("0A"))), 15, AT(26, 3) },

	{ "request 4, field 4: small hex", 4,
		TEXT(BK_DATA("000000000000000a", PAPER_ACCOUNT, PAPER_VALIDATION)), 15, AT(75, 4) },
	{ "request 4, field 4: none", 4, TEXT("HDR1BK" HEX_KEYS), 15, AT(75, 4) },
	{ "request 4, field 5: a letter", 4, TEXT(WITH_FORMAT("0A")), 15, AT(91, 5) },
	{ "request 4, field 5: 99", 4, TEXT(WITH_FORMAT("99")), 23, AT(91, 5) },
	{ "request 4, field 6: 03", 4, TEXT(WITH_CHECK("03")), 15, AT(93, 6) },
	{ "request 4, field 7: a letter in the end", 4,
		TEXT(BK_DATA(ZEROS, "40000012345A", PAPER_VALIDATION)), 15, AT(95, 7) },
	{ "request 4, field 8: a letter in the end", 4, TEXT(WITH_TABLE("012345678901234A")),
		25, AT(107, 8) },
	{ "request 4, field 9: no N", 4, TEXT(BK_DATA(ZEROS, PAPER_ACCOUNT, "0123456789AB")),
		15, AT(123, 9) },
	{ "request 4, field 9: P and 15 hex", 4,
		TEXT(BK_DATA(ZEROS, PAPER_ACCOUNT, "P0123456789ABCDE")), 15, AT(123, 9) },
	{ "paper, the first fault decides: fields 6, 8 and 10", 4,
		TEXT(COMMAND_OF("BK", HEX_KEYS, "01", "13", "A123456789012345") ";"), 15, AT(93, 6) },
	{ "paper, the first fault decides: field 8 and something left over", 4,
		TEXT(WITH_TABLE("A123456789012345") "X"), 25, AT(107, 8) },
};

/* An optional field begins at its mark. */
static const struct fault optional_faults[] = {
	{ "request 4, field 10: the mark alone", 4, TEXT(COMMAND ";"), 3, AT(135, 10) },
	{ "request 4, field 10: a count of letters", 4, TEXT(COMMAND ";AA"), 3, AT(135, 10) },
	{ "request 4, field 10: no length", 4, TEXT(COMMAND ";01"), 15, AT(135, 10) },
	{ "request 4, field 10: length 03", 4, TEXT(COMMAND ";0103345"), 15, AT(135, 10) },
	{ "request 4, field 10: a letter in the list", 4, TEXT(COMMAND ";01043A56"), 3, AT(135, 10) },
	{ "request 4, field 10: behind the form with P", 4,
		TEXT(BK_DATA(ZEROS, PAPER_ACCOUNT, "P0123456789ABCDEF") ";0"), 3, AT(140, 10) },
	{ "request 4, field 11: the mark alone", 4, TEXT(COMMAND "%"), 15, AT(135, 11) },
	{ "request 4, field 11: 10", 4, TEXT(COMMAND "%10"), 15, AT(135, 11) },
	{ "request 4, field 11: behind field 10", 4, TEXT(COMMAND ";010534567%0"), 15, AT(145, 11) },
	{ "request 4, field 12: its first character", 4, TEXT(COMMAND TRAILER_MARK "\x1f" "end"),
		15, AT(135, 12) },
	{ "request 4, field 12: its thirty-second", 4,
		TEXT(COMMAND TRAILER_MARK "0123456789;%ABCDEFGHIJ abcdefgh\x7f"), 15, AT(135, 12) },
	{ "request 4, field 12: behind field 11", 4, TEXT(COMMAND "%03" TRAILER_MARK "\x80"),
		15, AT(138, 12) },
	{ "request 4, field 12: behind fields 10 and 11", 4,
		TEXT(COMMAND ";010534567%03" TRAILER_MARK TRAILER_MARK), 15, AT(148, 12) },
	{ "request 4, field 12: among 32 of more", 4,
		TEXT(COMMAND TRAILER_MARK "0123456789;%ABCDEFGHIJ abcdefgh\x7f" "3"), 15, AT(135, 12) },
	{ "request 4, field 12 of a DA: behind field 11", 4,
		TEXT(VERIFICATION("DA") "%03" TRAILER_MARK "en\x00"), 15, AT(149, 12) },
	{ "request 4, field 12: header 16", 16,
		TEXT(HEADER_16 "EA" TWO_KEYS "12" ZEROS "01" "04" PAPER_ACCOUNT PAPER_TABLE
			PAPER_VALIDATION PAPER_OFFSET TRAILER_MARK "\x1f"), 15, AT(158, 12) },
};

/* "Leftovers (bytes past a full trailer too) point at the first one." */
static const struct fault leftovers[] = {
	{ "request 4, left over: behind field 9", 4, TEXT(COMMAND "X"), 15, AT(135, 0) },
	{ "request 4, left over: more than one", 4, TEXT(COMMAND "X;00%03"), 15, AT(135, 0) },
	{ "request 4, left over: not printable", 4, TEXT(COMMAND "\x00"), 15, AT(135, 0) },
	{ "request 4, left over: behind field 10", 4, TEXT(COMMAND ";010534567X"), 15, AT(145, 0) },
	{ "request 4, left over: a second field 10", 4, TEXT(COMMAND ";00;00"), 15, AT(138, 0) },
	{ "request 4, left over: behind field 11", 4, TEXT(COMMAND "%03X"), 15, AT(138, 0) },
	{ "request 4, left over: a second field 11", 4, TEXT(COMMAND "%03%03"), 15, AT(138, 0) },
	{ "request 4, left over: field 10 behind field 11", 4, TEXT(COMMAND "%03;00"), 15, AT(138, 0) },
	{ "request 4, left over: behind a full trailer", 4,
		TEXT(COMMAND TRAILER_MARK TRAILER_32 "33"), 15, AT(168, 0) },
	{ "request 4, left over: behind a full trailer, not printable", 4,
		TEXT(COMMAND TRAILER_MARK TRAILER_32 "\x1f"), 15, AT(168, 0) },
	{ "request 4, left over: behind a full trailer, a mark", 4,
		TEXT(COMMAND TRAILER_MARK TRAILER_32 TRAILER_MARK), 15, AT(168, 0) },
	{ "request 4, left over: behind field 11 and a full trailer", 4,
		TEXT(COMMAND "%03" TRAILER_MARK TRAILER_32 "3"), 15, AT(171, 0) },
	{ "request 4, left over: behind field 10 of a DA", 4, TEXT(VERIFICATION("DA") "F"),
		15, AT(146, 0) },
	{ "request 4, left over: behind a full trailer of an EA", 4,
		TEXT(VERIFICATION("EA") "%03" TRAILER_MARK TRAILER_32 "3"), 15, AT(182, 0) },
	{ "request 4, left over: header 0", 0,
		TEXT("BK" HEX_KEYS ZEROS "01" "04" PAPER_ACCOUNT PAPER_TABLE PAPER_VALIDATION "X"),
		15, AT(131, 0) },
};

/* The keys of a command, with an LMK id each. */
#define BK_UNDER(id, other) WITH_KEYS("FFF" PIN_KEY_BLOCK(id) PVK_BLOCK(other))
#define DA_UNDER(id, other) VERIFY_UNDER("DA", PIN_KEY_FOR("71", "B", id) PVK_BLOCK(other))

/* "For disagreeing LMK ids, point at the last id that is present." What is left
 * over comes before them: it is judged first. */
static const struct fault disagreeing[] = {
	{ "request 4, ids: field 3", 4, TEXT(BK_UNDER("03", "04")), 15, AT(26, 3) },
	{ "request 4, ids: field 3, before a trailer", 4,
		TEXT(BK_UNDER("03", "04") ";00" TRAILER_MARK "%05"), 15, AT(26, 3) },
	{ "request 4, ids: field 3, behind a longer key block", 4,
		TEXT(WITH_KEYS("FFF" "S1002072TB00N0003more" PVK_BLOCK("04"))), 15, AT(30, 3) },
	{ "request 4, ids: field 11 against both keys", 4, TEXT(BK_UNDER("03", "03") "%04"),
		15, AT(103, 11) },
	{ "request 4, ids: field 11 agrees with the first key", 4, TEXT(BK_UNDER("03", "04") "%03"),
		15, AT(103, 11) },
	{ "request 4, ids: field 11 agrees with the second key", 4, TEXT(BK_UNDER("03", "04") "%04"),
		15, AT(103, 11) },
	{ "request 4, ids: three of them", 4, TEXT(BK_UNDER("03", "04") "%05"), 15, AT(103, 11) },
	{ "request 4, ids: field 11 behind field 10", 4,
		TEXT(BK_UNDER("03", "03") ";010534567%04" TRAILER_MARK "end"), 15, AT(113, 11) },
	{ "request 4, ids of a DA: field 2", 4, TEXT(DA_UNDER("03", "04")), 15, AT(23, 2) },
	{ "request 4, ids of a DA: field 11 against both keys", 4, TEXT(DA_UNDER("03", "03") "%04"),
		15, AT(114, 11) },
	{ "request 4, ids of a DA: field 11 agrees with the first key", 4,
		TEXT(DA_UNDER("03", "04") "%03"), 15, AT(114, 11) },
	{ "request 4, ids of a DA: field 11 agrees with the second key", 4,
		TEXT(DA_UNDER("03", "04") "%04"), 15, AT(114, 11) },
	{ "request 4, ids of an EA: field 11 against the first key", 4,
		TEXT(VERIFY_UNDER("EA", PIN_KEY_BLOCK("03") HEX_KEY) "%04"), 15, AT(130, 11) },
	{ "request 4, ids of an EA: field 11 against the second key", 4,
		TEXT(VERIFY_UNDER("EA", HEX_KEY PVK_BLOCK("03")) "%04"), 15, AT(130, 11) },
	{ "request 4, ids of an EA: field 11 against a key beside a T key", 4,
		TEXT(VERIFY_UNDER("EA", PIN_KEY_BLOCK("03") LONG_KEY) "%04"), 15, AT(146, 11) },
	{ "request 4, ids: something left over decides", 4, TEXT(BK_UNDER("03", "04") "X"),
		15, AT(103, 0) },
	{ "request 4, ids: something left over behind field 11 decides", 4,
		TEXT(BK_UNDER("03", "03") "%04X"), 15, AT(106, 0) },
	{ "request 4, ids: a thirty-third character decides", 4,
		TEXT(DA_UNDER("03", "04") TRAILER_MARK TRAILER_32 "3"), 15, AT(147, 0) },
	{ "request 4, ids: the trailer comes before them", 4,
		TEXT(DA_UNDER("03", "04") TRAILER_MARK "\x1f"), 15, AT(114, 12) },
};

/* The fields of DA and EA have numbers of their own. */
static const struct fault verification_faults[] = {
	{ "request 4, field 1 of a DA: no letter", 4, TEXT("HDR1DA"), 15, AT(6, 1) },
	{ "request 4, field 1 of an EA: another letter", 4,
		TEXT(VERIFY_UNDER("EA", "X" ZEROS ZEROS HEX_KEY)), 26, AT(6, 1) },
	{ "request 4, field 1 of a DA: its LMK id", 4,
		TEXT(VERIFY_UNDER("DA", PIN_KEY_FOR("71", "B", "1O") HEX_KEY)), 15, AT(6, 1) },
	{ "request 4, field 2 of a DA: behind a T key", 4, TEXT("HDR1DA" LONG_KEY "U00"),
		15, AT(55, 2) },
	{ "request 4, field 2 of an EA: its mode, behind a key block", 4,
		TEXT(VERIFY_UNDER("EA", PIN_KEY_BLOCK("03") PVK_FOR("G", "03"))), 29, AT(23, 2) },
	{ "request 4, field 3 of a DA: 04", 4, TEXT(VERIFY_MOST("04")), 15, AT(72, 3) },
	{ "request 4, field 4 of a DA: small hex", 4,
		TEXT(DA_DATA("00000000000000a0", PAPER_ACCOUNT, PAPER_VALIDATION)), 15, AT(74, 4) },
	{ "request 4, field 5 of a DA: a letter", 4, TEXT(VERIFY_FORMAT("A1")), 15, AT(90, 5) },
	{ "request 4, field 5 of a DA: 00", 4, TEXT(VERIFY_FORMAT("00")), 23, AT(90, 5) },
	{ "request 4, field 5 of a DA: 42", 4, TEXT(VERIFY_FORMAT("42")), 69, AT(90, 5) },
	{ "request 4, field 6 of an EA: 13", 4, TEXT(VERIFY("EA", "13", PAPER_OFFSET)), 15, AT(92, 6) },
	{ "request 4, field 7 of a DA: a letter in the end", 4,
		TEXT(DA_DATA(ZEROS, "40000012345A", PAPER_VALIDATION)), 15, AT(94, 7) },
	{ "request 4, field 8 of a DA: a letter in the end", 4, TEXT(VERIFY_TABLE("012345678901234F")),
		25, AT(106, 8) },
	{ "request 4, field 9 of a DA: two N", 4, TEXT(DA_DATA(ZEROS, PAPER_ACCOUNT, "0123456789NN")),
		15, AT(122, 9) },
	{ "request 4, field 10 of a DA: behind the form with P", 4,
		TEXT("HDR1DA" TWO_KEYS "12" ZEROS "01" "04" PAPER_ACCOUNT PAPER_TABLE
			"P0123456789ABCDEF" "924FFFFFFFFF"), 15, AT(139, 10) },
	{ "request 4, field 10 of an EA: a digit behind the F", 4,
		TEXT(VERIFY("EA", "04", "9247FFFFFFF7")), 15, AT(134, 10) },
	{ "request 4, field 11 of a DA: 10", 4, TEXT(VERIFICATION("DA") "%10"), 15, AT(146, 11) },
	{ "request 4, field 11 of an EA: short", 4, TEXT(VERIFICATION("EA") "%0"), 15, AT(146, 11) },
	{ "request 4, field 12 of an EA", 4, TEXT(VERIFICATION("EA") TRAILER_MARK "\x7f"),
		15, AT(146, 12) },
};

/* The paper's block with another fill, and with PIN lengths 3 and 13. */
#define OTHER_FILL_BLOCK "0534167FFFEDCBA8"
#define SHORT_PIN_BLOCK "0334167FFFEDCBA9"
#define LONG_PIN_BLOCK "0D34167FFFEDCBA9"

/* Every number that is no field's points at nothing, and so does 00. */
static const struct exchange unpointed[] = {
	{ "request 4, 00: ids agree", USUAL, GOOD, TEXT(BK_UNDER("03", "03") "%03"),
		0, 0, NOWHERE, TEXT("HDR1BL009247FFFFFFFF") },
	{ "request 4, 00: one id, in field 1", USUAL, GOOD,
		TEXT(VERIFY_UNDER("EA", PIN_KEY_BLOCK("03") HEX_KEY)), 0, 0, NOWHERE, TEXT("HDR1EB00") },
	{ "request 4, 00: one id, in field 11", USUAL, GOOD, TEXT(COMMAND "%09"),
		0, 0, NOWHERE, TEXT("HDR1BL009247FFFFFFFF") },
	{ "request 4, 00: every optional field", USUAL, GOOD,
		TEXT(COMMAND ";00%03" TRAILER_MARK TRAILER_32),
		0, 0, NOWHERE, TEXT("HDR1BL009247FFFFFFFF" TRAILER_MARK TRAILER_32) },
	{ "request 4, 01", USUAL, GOOD, TEXT(VERIFY("EA", "04", "9248FFFFFFFF")),
		0, 1, NOWHERE, TEXT("HDR1EB01") },
	{ "request 4, 10", USUAL, PARITIES(0, 1), TEXT(VERIFICATION("DA")),
		0, 10, NOWHERE, TEXT("HDR1DB10") },
	{ "request 4, 11", USUAL, PARITIES(1, 0), TEXT(VERIFICATION("DA")),
		0, 11, NOWHERE, TEXT("HDR1DB11") },
	{ "request 4, 20", USUAL, GOOD_WITH(OTHER_FILL_BLOCK), TEXT(COMMAND),
		0, 20, NOWHERE, TEXT("HDR1BL20") },
	{ "request 4, 24: three digits", USUAL, GOOD_WITH(SHORT_PIN_BLOCK), TEXT(COMMAND),
		0, 24, NOWHERE, TEXT("HDR1BL24") },
	{ "request 4, 24: thirteen digits", USUAL, GOOD_WITH(LONG_PIN_BLOCK), TEXT(VERIFICATION("EA")),
		0, 24, NOWHERE, TEXT("HDR1EB24") },
	{ "request 4, 68: not at the code", USUAL, GOOD, TEXT("HDR1BL"),
		68, 68, NOWHERE, TEXT("HDR1BM68") },
	{ "request 4, 81", USUAL, GOOD, TEXT(VERIFY("DA", "06", "049247FFFFFF")),
		0, 81, NOWHERE, TEXT("HDR1DB81") },
	{ "request 4, 86", USUAL, GOOD, TEXT(COMMAND ";010534567%03"),
		0, 86, NOWHERE, TEXT("HDR1BL86") },
	{ "request 4, 902: not at the header's byte", USUAL, GOOD, TEXT("HD\x7f" "1BK003"),
		902, 902, NOWHERE, TEXT("") },
};

/* What the answering call writes beside a refusal: header, response code and the
 * number in two digits; nothing beside 902. The host's bytes tell no place. */
static size_t refusal(size_t header, struct text command, uint32_t number, char *response)
{
	if (number == 902)
		return 0;
	memcpy(response, command.at, header + 2);
	response[header + 1] = (char)(response[header + 1] + 1);
	response[header + 2] = (char)('0' + number / 10);
	response[header + 3] = (char)('0' + number % 10);
	return header + 4;
}

static void refuse(const struct fault *f)
{
	char response[LENT];
	struct exchange e = {
		f->source, USUAL_WITH(f->header, 0), GOOD, f->command, f->number, f->number, f->at,
		{ response, refusal(f->header, f->command, f->number, response) },
	};

	play(&e, 1);
}

static void refuse_all(const struct fault *rows, size_t count)
{
	for (size_t i = 0; i < count; i++)
		refuse(&rows[i]);
}

/* The field that a character of a layout's command stands in; 0 before them. */
static uint32_t field_at(const struct layout *layout, size_t at)
{
	uint32_t field = 0;

	while (field < layout->fields && layout->begins[field] <= at)
		field++;
	return field;
}

/* What a character that is not printable gives: a key's letter is judged by
 * itself, and a table's characters when all of them are there. */
static uint32_t number_at(const struct layout *layout, size_t at)
{
	uint32_t field = field_at(layout, at);

	if (field == TABLE_FIELD)
		return 25;
	if ((field == layout->pin_key || field == layout->pin_key + 1) &&
		at == layout->begins[field - 1])
		return 26;
	return 15;
}

static struct spot spot_at(const struct layout *layout, size_t header, size_t at)
{
	uint32_t field = field_at(layout, at);
	size_t place = layout->begins[field - 1] - PAPER_HEADER + header;

	return (struct spot){ (uint32_t)place, field };
}

/* A layout's command under another header, cut before a character of a field,
 * and with that character changed into one that no field takes. */
static void damage(const struct layout *layout, size_t header, size_t at)
{
	char source[DEED], command[LENT_COMMAND];
	size_t len = strlen(layout->command) - PAPER_HEADER + header;
	size_t place = at - PAPER_HEADER + header;
	struct fault cut = { source, header, { command, place }, 15, spot_at(layout, header, at) };
	struct fault changed = { source, header, { command, len }, number_at(layout, at), cut.at };

	memcpy(command, HEADER_16, header);
	memcpy(command + header, layout->command + PAPER_HEADER, len - header);
	snprintf(source, sizeof source, "request 4, %s cut at %zu", layout->name, place);
	refuse(&cut);
	snprintf(source, sizeof source, "request 4, %s changed at %zu", layout->name, place);
	command[place] = '\x7f';
	refuse(&changed);
}

static void damage_everywhere(const struct layout *layout)
{
	static const size_t headers[] = { 0, 4, 16 };

	for (size_t i = 0; i < COUNT(headers); i++)
		for (size_t at = layout->begins[0]; at < layout->begins[layout->fields]; at++)
			damage(layout, headers[i], at);
}

void place_vectors(void)
{
	for (size_t i = 0; i < COUNT(layouts); i++)
		damage_everywhere(&layouts[i]);
	refuse_all(bk_faults, COUNT(bk_faults));
	refuse_all(optional_faults, COUNT(optional_faults));
	refuse_all(verification_faults, COUNT(verification_faults));
	refuse_all(leftovers, COUNT(leftovers));
	refuse_all(disagreeing, COUNT(disagreeing));
	play(unpointed, COUNT(unpointed));
}
