/*
 * BK: the exchange that the paper runs, and exchanges that differ from it in a
 * place or two, each beside the sentence that settles it: the paper's, or that
 * of a request of document 02.
 */
#include "command_vectors.h"

/* A command that ends in its decimalisation table. */
#define CUT_IN_TABLE(table) "HDR1BK" HEX_KEYS ZEROS "01" "04" PAPER_ACCOUNT table

/* PIN 34567 in a format, under the usual settings and under No by name. */
#define DONE 0, 0, NOWHERE, TEXT("HDR1BL009247FFFFFFFF")
#define ALLOWED(format, block) \
	{ "request 5, usual: " format, USUAL, GOOD_WITH(block), TEXT(WITH_FORMAT(format)), DONE }, \
	{ "request 5, No: " format, UNRESTRICTED, GOOD_WITH(block), TEXT(WITH_FORMAT(format)), DONE }
#define NOT_ALLOWED(format, block) \
	{ "request 5, usual: " format, USUAL, GOOD_WITH(block), TEXT(WITH_FORMAT(format)), \
		69, 69, AT(91, 5), TEXT("HDR1BL69") }, \
	{ "request 5, No: " format, UNRESTRICTED, GOOD_WITH(block), TEXT(WITH_FORMAT(format)), DONE }

static const struct exchange exchanges[] = {
	{ "paper, the exchange that is run", USUAL, GOOD, TEXT(COMMAND),
		0, 0, NOWHERE, TEXT("HDR1BL009247FFFFFFFF") },

	{ "paper, response code: EE", USUAL, GOOD, TEXT(WITH_CODE("EE")),
		68, 68, NOWHERE, TEXT("HDR1EF68") },
	{ "paper, response code: 255 becomes 0", USUAL, GOOD, TEXT(WITH_CODE("B\xff")),
		68, 68, NOWHERE, TEXT("HDR1B\x00" "68") },

	{ "paper, keys: U and T", USUAL, GOOD,
		TEXT(WITH_KEYS("002" HEX_KEY LONG_KEY)),
		0, 0, NOWHERE, TEXT("HDR1BL009247FFFFFFFF") },
	{ "paper, keys: S under 001", USUAL, GOOD,
		TEXT(WITH_KEYS("001" HEX_KEY PVK_BLOCK("03"))), 26, 26, AT(42, 3), TEXT("HDR1BL26") },
	{ "paper, keys: U under FFF", USUAL, GOOD, TEXT(WITH_KEYS("FFF" HEX_KEY HEX_KEY)),
		26, 26, AT(9, 2), TEXT("HDR1BL26") },
	{ "paper, keys: key blocks", USUAL, GOOD,
		TEXT(WITH_KEYS("FFF" PIN_KEY_BLOCK("03") PVK_BLOCK("03")) "%03"),
		0, 0, NOWHERE, TEXT("HDR1BL009247FFFFFFFF") },
	{ "paper, keys: a key block of length 15", USUAL, GOOD,
		TEXT(WITH_KEYS("FFF" "S1001572TB00N000" PVK_BLOCK("03"))),
		26, 26, AT(9, 2), TEXT("HDR1BL26") },
	{ "paper, keys: the PVK's usage, before the LMK id", USUAL, GOOD,
		TEXT(WITH_KEYS("FFF" "S10016V1TN00N0010" PVK_BLOCK("03"))),
		29, 29, AT(9, 2), TEXT("HDR1BL29") },
	{ "paper, LMK ids: between the keys", USUAL, GOOD,
		TEXT(WITH_KEYS("FFF" PIN_KEY_BLOCK("03") PVK_BLOCK("04"))),
		15, 15, AT(26, 3), TEXT("HDR1BL15") },
	{ "paper, LMK ids: between field 11 and the keys", USUAL, GOOD,
		TEXT(WITH_KEYS("FFF" PIN_KEY_BLOCK("03") PVK_BLOCK("03")) "%04"),
		15, 15, AT(103, 11), TEXT("HDR1BL15") },

	{ "paper, format: 02", USUAL, GOOD, TEXT(WITH_FORMAT("02")),
		23, 23, AT(91, 5), TEXT("HDR1BL23") },
	{ "paper, format: 41", UNRESTRICTED, GOOD, TEXT(WITH_FORMAT("41")),
		69, 69, AT(91, 5), TEXT("HDR1BL69") },
	{ "request 4, field 5: 48", UNRESTRICTED, GOOD, TEXT(WITH_FORMAT("48")),
		69, 69, AT(91, 5), TEXT("HDR1BL69") },
	{ "paper, format: 05 restricted", RESTRICTED, GOOD, TEXT(WITH_FORMAT("05")),
		69, 69, AT(91, 5), TEXT("HDR1BL69") },
	{ "paper, format: 01 restricted", RESTRICTED, GOOD, TEXT(COMMAND),
		0, 0, NOWHERE, TEXT("HDR1BL009247FFFFFFFF") },

	ALLOWED("01", "0534167FFFEDCBA9"), ALLOWED("47", "3534167AAAB89EFC"),
	NOT_ALLOWED("03", "34567FFFFFFFFFFF"), NOT_ALLOWED("05", "1534567000000000"),
	NOT_ALLOWED("34", "2534567FFFFFFFFF"), NOT_ALLOWED("35", "2534167FFFEDCBA9"),

	{ "request 2, BK: the instructor's block", UNRESTRICTED, GOOD_WITH(instructors_block),
		TEXT(WITH_FORMAT("03")), 0, 20, NOWHERE, TEXT("HDR1BL20") },
	{ "request 2, BK: 20 comes before 81", UNRESTRICTED, GOOD_WITH(instructors_block),
		TEXT(COMMAND_OF("BK", HEX_KEYS, "03", "05", PAPER_TABLE)),
		0, 20, NOWHERE, TEXT("HDR1BL20") },

	{ "paper, table: a letter", USUAL, GOOD, TEXT(WITH_TABLE("012345678901234A")),
		25, 25, AT(107, 8), TEXT("HDR1BL25") },
	{ "paper, table: characters missing at the end", USUAL, GOOD,
		TEXT(CUT_IN_TABLE("A12345678901234")), 15, 15, AT(107, 8), TEXT("HDR1BL15") },

	{ "paper, weak PINs: the PIN", USUAL, GOOD, TEXT(COMMAND ";010534567"),
		0, 86, NOWHERE, TEXT("HDR1BL86") },
	{ "paper, weak PINs: the PIN behind another", USUAL, GOOD,
		TEXT(COMMAND ";02051111134567"), 0, 86, NOWHERE, TEXT("HDR1BL86") },
	{ "paper, weak PINs: only the PIN's beginning", USUAL, GOOD, TEXT(COMMAND ";01043456"),
		0, 0, NOWHERE, TEXT("HDR1BL009247FFFFFFFF") },
	{ "paper, weak PINs: only the PIN's end", USUAL, GOOD, TEXT(COMMAND ";01044567"),
		0, 0, NOWHERE, TEXT("HDR1BL009247FFFFFFFF") },
	{ "paper, weak PINs: a longer one", USUAL, GOOD, TEXT(COMMAND ";0106345670"),
		0, 0, NOWHERE, TEXT("HDR1BL009247FFFFFFFF") },
	{ "paper, weak PINs: none", USUAL, GOOD, TEXT(COMMAND ";00"),
		0, 0, NOWHERE, TEXT("HDR1BL009247FFFFFFFF") },
	{ "paper, weak PINs: fewer than counted", USUAL, GOOD, TEXT(COMMAND ";020534567"),
		3, 3, AT(135, 10), TEXT("HDR1BL03") },

	{ "paper, trailer: beside 00", USUAL, GOOD, TEXT(COMMAND TRAILER_MARK "end"),
		0, 0, NOWHERE, TEXT("HDR1BL009247FFFFFFFF" TRAILER_MARK "end") },
	{ "paper, trailer: of no characters", USUAL, GOOD, TEXT(COMMAND TRAILER_MARK),
		0, 0, NOWHERE, TEXT("HDR1BL009247FFFFFFFF" TRAILER_MARK) },
	{ "paper, trailer: not beside a refusal", USUAL, GOOD,
		TEXT(COMMAND ";010534567" TRAILER_MARK "end"), 0, 86, NOWHERE, TEXT("HDR1BL86") },
	{ "paper, trailer: of 33 characters", USUAL, GOOD,
		TEXT(COMMAND TRAILER_MARK TRAILER_32 "3"), 15, 15, AT(168, 0), TEXT("HDR1BL15") },
	{ "paper, trailer: a second mark", USUAL, GOOD,
		TEXT(COMMAND TRAILER_MARK "end" TRAILER_MARK), 15, 15, AT(135, 12), TEXT("HDR1BL15") },

	{ "paper, parity: 10 comes before 11", USUAL, PARITIES(0, 0), TEXT(COMMAND),
		0, 10, NOWHERE, TEXT("HDR1BL10") },
	{ "paper, parity: of the PIN key", USUAL, PARITIES(0, 1), TEXT(COMMAND),
		0, 10, NOWHERE, TEXT("HDR1BL10") },
	{ "paper, parity: of the PVK", USUAL, PARITIES(1, 0), TEXT(COMMAND),
		0, 11, NOWHERE, TEXT("HDR1BL11") },
	{ "header, parity: any value but 0 is good", USUAL, PARITIES(0x80, 0xFF), TEXT(COMMAND),
		0, 0, NOWHERE, TEXT("HDR1BL009247FFFFFFFF") },

	{ "paper P9, check 5", USUAL, GOOD, TEXT(WITH_CHECK("05")),
		0, 0, NOWHERE, TEXT("HDR1BL0049247FFFFFFF") },
	{ "paper P9, check 6", USUAL, GOOD, TEXT(WITH_CHECK("06")), 0, 81, NOWHERE, TEXT("HDR1BL81") },
	{ "paper, variable length, check 6", VARIABLE, GOOD, TEXT(WITH_CHECK("06")),
		0, 0, NOWHERE, TEXT("HDR1BL0049247FFFFFFF") },
	{ "paper, variable length, check 4", VARIABLE, GOOD, TEXT(COMMAND),
		0, 0, NOWHERE, TEXT("HDR1BL0049247FFFFFFF") },
	{ "paper, variable length, check 13", VARIABLE, GOOD, TEXT(WITH_CHECK("13")),
		15, 15, AT(93, 6), TEXT("HDR1BL15") },
	{ "paper, the answering call: 81 comes before 86", USUAL, GOOD,
		TEXT(WITH_CHECK("06") ";010534567"), 0, 81, NOWHERE, TEXT("HDR1BL81") },

	{ "paper, no frame: header setting 17", USUAL_WITH(17, 0), GOOD, TEXT(COMMAND),
		902, 902, NOWHERE, TEXT("") },
	{ "paper, no frame: under header + 2", USUAL, GOOD, TEXT("HDR1B"),
		902, 902, NOWHERE, TEXT("") },
	{ "paper, no frame: a header byte 1F", USUAL, GOOD, TEXT("HDR\x1f" "BK"),
		902, 902, NOWHERE, TEXT("") },
	{ "paper, a frame and nothing else", USUAL, GOOD, TEXT("HDR1BK"),
		15, 15, AT(6, 1), TEXT("HDR1BL15") },
	{ "paper, header length 0", USUAL_WITH(0, 0), GOOD, TEXT("EE"), 68, 68, NOWHERE, TEXT("EF68") },
};

void bk_vectors(void)
{
	play(exchanges, COUNT(exchanges));
}
