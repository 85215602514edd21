/*
 * A command without a key box: the exchange of the lab header and what differs
 * from it in a key or a place, and the PIN block of a command, nibble by nibble.
 * PIN and account are those of the paper's figures. What is sealed was sealed
 * with OpenSSL, and the offsets were reckoned by hand from its enciphered blocks.
 */
#include <stdbool.h>
#include <string.h>

#include "command_vectors.h"
#include "quillgimlet_lab.h"

/* The header's keys; and one of three for each of them, the PIN key's being the
 * test LMK that source 000 prints. All have odd parity. */
#define PIN_KEY "0123456789ABCDEFFEDCBA9876543210"
#define LONG_PIN_KEY "0123456789ABCDEF8080808080808080FEDCBA9876543210"
#define PVK_2 "89ABCDEF0123456776543210FEDCBA98"
#define PVK_3 PVK_2 "CDEF0123456789AB"

/* PIN 34567 in format 01, sealed under the PIN keys; and under the first of them
 * PIN 34568, a block of three digits, and PIN 34567 with a wrong fill nibble. */
#define SEALED "A6C27D9717227471"
#define LONG_SEALED "6EDB87624E966113"
#define SEALED_OTHER "AB49B645BC7013A6"
#define SEALED_SHORT "F90790D3D21A8597"
#define SEALED_FILL "B9C6D1EF604AB3FA"

/* The PVKs make natural PINs 82931 and 15925 of the validation data. */
#define OFFSET_2 "2636FFFFFFFF"
#define OFFSET_3 "9642FFFFFFFF"

#define BK_OF(keys, block, check) \
	"HDR1BK" keys block "01" check PAPER_ACCOUNT PAPER_TABLE PAPER_VALIDATION
#define BK(block) BK_OF(HEX_KEYS, block, "04")
#define VERIFY_OF(code, keys, block, check, offset) \
	"HDR1" code keys "12" block "01" check PAPER_ACCOUNT PAPER_TABLE PAPER_VALIDATION offset
#define DA(block, offset) VERIFY_OF("DA", TWO_KEYS, block, "04", offset)
#define EA(block, offset) VERIFY_OF("EA", TWO_KEYS, block, "04", offset)

#define LEAST 65
#define PIN_BLOCK_LEAST 16
#define LONGEST_KEY 40
#define LONGEST_COMMAND 256

/* A command with the lab keys, and what it must be answered. */
struct lab {
	const char *source;
	qg_settings settings;
	struct text command;
	const char *pin_key;
	const char *pvk;
	uint32_t number;
	struct spot at;
	struct text response;
};

static const struct lab exchanges[] = {
	{ "the lab header, BK", USUAL, TEXT(BK(SEALED)), PIN_KEY, PVK_2,
		0, NOWHERE, TEXT("HDR1BL00" OFFSET_2) },
	{ "the lab header, DA", USUAL, TEXT(DA(SEALED, OFFSET_2)), PIN_KEY, PVK_2,
		0, NOWHERE, TEXT("HDR1DB00") },
	{ "the lab header, EA", USUAL, TEXT(EA(SEALED, OFFSET_2)), PIN_KEY, PVK_2,
		0, NOWHERE, TEXT("HDR1EB00") },
	{ "request 3, a PVK of three", USUAL, TEXT(BK(SEALED)), PIN_KEY, PVK_3,
		0, NOWHERE, TEXT("HDR1BL00" OFFSET_3) },
	{ "request 3, a PIN key of three", USUAL, TEXT(BK(LONG_SEALED)), LONG_PIN_KEY, PVK_2,
		0, NOWHERE, TEXT("HDR1BL00" OFFSET_2) },
	{ "request 3, both of three", USUAL, TEXT(DA(LONG_SEALED, OFFSET_3)), LONG_PIN_KEY, PVK_3,
		0, NOWHERE, TEXT("HDR1DB00") },
	{ "request 3, keys of two for the letter T", USUAL,
		TEXT(BK_OF("001" LONG_KEY LONG_KEY, SEALED, "04")), PIN_KEY, PVK_2,
		0, NOWHERE, TEXT("HDR1BL00" OFFSET_2) },
	{ "request 3, keys of two and three for key blocks", USUAL,
		TEXT(BK_OF("FFF" PIN_KEY_BLOCK("03") PVK_BLOCK("03"), SEALED, "04")), PIN_KEY, PVK_3,
		0, NOWHERE, TEXT("HDR1BL00" OFFSET_3) },
	{ "the lab header, variable length and a trailer", VARIABLE,
		TEXT(BK(SEALED) TRAILER_MARK "end"), PIN_KEY, PVK_2,
		0, NOWHERE, TEXT("HDR1BL00" "52636FFFFFFF" TRAILER_MARK "end") },

	{ "the lab header, 01: another PIN", USUAL, TEXT(DA(SEALED_OTHER, OFFSET_2)), PIN_KEY, PVK_2,
		1, NOWHERE, TEXT("HDR1DB01") },
	{ "the lab header, 01: another offset", USUAL, TEXT(EA(SEALED, "2637FFFFFFFF")), PIN_KEY,
		PVK_2, 1, NOWHERE, TEXT("HDR1EB01") },
	{ "the lab header, 01: another PVK", USUAL, TEXT(DA(SEALED, OFFSET_2)), PIN_KEY, PVK_3,
		1, NOWHERE, TEXT("HDR1DB01") },
	{ "the lab header, 20: a fill nibble", USUAL, TEXT(BK(SEALED_FILL)), PIN_KEY, PVK_2,
		20, NOWHERE, TEXT("HDR1BL20") },
	{ "the lab header, 20: another PIN key", USUAL, TEXT(BK(SEALED)), LONG_PIN_KEY, PVK_2,
		20, NOWHERE, TEXT("HDR1BL20") },
	{ "request 3, the two keys exchanged", USUAL, TEXT(DA(SEALED, OFFSET_2)),
		PVK_2, PIN_KEY, 20, NOWHERE, TEXT("HDR1DB20") },
	{ "the lab header, 24", USUAL, TEXT(DA(SEALED_SHORT, OFFSET_2)), PIN_KEY, PVK_2,
		24, NOWHERE, TEXT("HDR1DB24") },
	{ "the lab header, 81 of BK", USUAL, TEXT(BK_OF(HEX_KEYS, SEALED, "06")), PIN_KEY, PVK_2,
		81, NOWHERE, TEXT("HDR1BL81") },
	{ "the lab header, 81 of DA", USUAL, TEXT(DA(SEALED, "52636FFFFFFF")), PIN_KEY, PVK_2,
		81, NOWHERE, TEXT("HDR1DB81") },
	{ "the lab header, 86", USUAL, TEXT(BK(SEALED) ";010534567"), PIN_KEY, PVK_2,
		86, NOWHERE, TEXT("HDR1BL86") },

	{ "request 3, 15 of a field comes before the keys' lengths", USUAL,
		TEXT(BK_OF(HEX_KEYS, SEALED, "13")), "00", "00", 15, AT(93, 6), TEXT("HDR1BL15") },
	{ "request 3, 26 comes before them", USUAL, TEXT(BK_OF("001" "X" ZEROS ZEROS HEX_KEY, SEALED, "04")),
		"00", "00", 26, AT(9, 2), TEXT("HDR1BL26") },
	{ "request 3, what is left over comes before them", USUAL, TEXT(BK(SEALED) "X"),
		"00", "00", 15, AT(135, 0), TEXT("HDR1BL15") },
	{ "request 3, ids that disagree come before them", USUAL,
		TEXT(BK_OF("FFF" PIN_KEY_BLOCK("03") PVK_BLOCK("04"), SEALED, "04")), "00", "00",
		15, AT(26, 3), TEXT("HDR1BL15") },
	{ "request 3, 69 comes before them", USUAL, TEXT("HDR1BK" HEX_KEYS SEALED "05" "04"
		PAPER_ACCOUNT PAPER_TABLE PAPER_VALIDATION), "00", "00", 69, AT(91, 5), TEXT("HDR1BL69") },
	{ "request 3, 68 comes before them", USUAL, TEXT("HDR1EEanything"), "00", "00",
		68, NOWHERE, TEXT("HDR1EF68") },
	{ "request 3, 902 comes before them", USUAL, TEXT("HDR1B"), "00", "00",
		902, NOWHERE, TEXT("") },
	{ "request 3, 902: header setting 17", USUAL_WITH(17, 0), TEXT(BK(SEALED)), PIN_KEY, PVK_2,
		902, NOWHERE, TEXT("") },
};

/* A key as it is lent. */
struct key {
	uint8_t at[LONGEST_KEY];
	size_t len;
};

static struct key key_of(const char *hex)
{
	struct key key = { { 0 }, 0 };

	key.len = bytes_of(hex, key.at);
	return key;
}

/* Makes the call with copies, and holds all that it was lent. */
static void play_lab(const struct lab *row, struct key pin_key, struct key pvk, size_t room)
{
	char command[LONGEST_COMMAND];
	struct key was_pin_key = pin_key, was_pvk = pvk;
	qg_reply expected = { row->number, (uint32_t)row->response.len, row->at.place, row->at.field };
	uint8_t out[LENT];

	memcpy(command, row->command.at, row->command.len);
	untouched(out);
	qg_reply reply = qg_lab_answer(row->settings, characters(command), row->command.len,
		pin_key.at, pin_key.len, pvk.at, pvk.len, out, room);
	hold_reply("answered with lab keys", row->source, reply, out, expected,
		characters(row->response.at));
	hold_kept("command", row->source, characters(command), characters(row->command.at),
		row->command.len);
	hold_kept("PIN key", row->source, pin_key.at, was_pin_key.at, LONGEST_KEY);
	hold_kept("PVK", row->source, pvk.at, was_pvk.at, LONGEST_KEY);
}

/* What is refused of a command that is in order. */
static const struct lab refused_length = {
	"request 3, 15: the length of a lab key", USUAL, TEXT(BK(SEALED)), PIN_KEY, PVK_2,
	15, AT(135, 0), TEXT("HDR1BL15"),
};
static const struct lab refused_verification = {
	"request 3, 15: the length of a lab key, of an EA with a trailer", USUAL,
	TEXT(EA(SEALED, OFFSET_2) TRAILER_MARK "end"), PIN_KEY, PVK_2,
	15, AT(150, 0), TEXT("HDR1EB15"),
};
static const struct lab refused_pin_key = {
	"request 3, 10", USUAL, TEXT(BK(SEALED)), PIN_KEY, PVK_2, 10, NOWHERE, TEXT("HDR1BL10"),
};
static const struct lab refused_pvk = {
	"request 3, 11", USUAL, TEXT(DA(SEALED, OFFSET_2)), PIN_KEY, PVK_2,
	11, NOWHERE, TEXT("HDR1DB11"),
};

static bool is_lab_key(size_t len)
{
	return len == 16 || len == 24;
}

/* A key of every other length than 16 and 24, whatever the other key, is 15
 * before either parity is looked at: all these are even. */
static void refuse_lengths(const struct lab *row)
{
	static const size_t beside[] = { 0, 8, 16, 24 };
	struct key even = { { 0 }, 0 }, other = { { 0 }, 0 };

	for (even.len = 0; even.len <= LONGEST_KEY; even.len++)
		for (size_t i = 0; i < COUNT(beside) && !is_lab_key(even.len); i++) {
			other.len = beside[i];
			play_lab(row, even, other, LENT);
			play_lab(row, other, even, LENT);
		}
}

/* Changes a bit of each byte of a key, its parity or another, and has the command
 * refused. Beside a bad PIN key a bad PVK is not told, and under either the
 * block is not judged. */
static void refuse_parities(const char *pin_hex, const char *pvk_hex)
{
	struct key pin_key = key_of(pin_hex), pvk = key_of(pvk_hex), even = { { 0 }, 16 };

	for (size_t bit = 0; bit < 8 * pin_key.len; bit++) {
		pin_key.at[bit / 8] ^= (uint8_t)(1 << bit % 8);
		play_lab(&refused_pin_key, pin_key, pvk, LENT);
		play_lab(&refused_pin_key, pin_key, even, LENT);
		pin_key.at[bit / 8] ^= (uint8_t)(1 << bit % 8);
	}
	for (size_t bit = 0; bit < 8 * pvk.len; bit++) {
		pvk.at[bit / 8] ^= (uint8_t)(1 << bit % 8);
		play_lab(&refused_pvk, pin_key, pvk, LENT);
		pvk.at[bit / 8] ^= (uint8_t)(1 << bit % 8);
	}
}

/* 901 comes before all else, and the least room is enough for the longest
 * response. */
static void play_rooms(void)
{
	static const struct lab rows[] = {
		{ "the lab header, 901", USUAL, TEXT(BK(SEALED)), PIN_KEY, PVK_2, 901, NOWHERE, TEXT("") },
		{ "the lab header, 901 before 902", USUAL, TEXT("HDR1B"), PIN_KEY, PVK_2,
			901, NOWHERE, TEXT("") },
		{ "the lab header, 901 before the keys", USUAL, TEXT(DA(SEALED, OFFSET_2)), "00", "00",
			901, NOWHERE, TEXT("") },
	};
	static const struct lab longest = {
		"the lab header, the longest response", USUAL_WITH(16, 0),
		TEXT(HEADER_16 "BK" HEX_KEYS SEALED "01" "04" PAPER_ACCOUNT PAPER_TABLE PAPER_VALIDATION
			TRAILER_MARK TRAILER_32), PIN_KEY, PVK_2,
		0, NOWHERE, TEXT(HEADER_16 "BL" "00" OFFSET_2 TRAILER_MARK TRAILER_32),
	};

	for (size_t i = 0; i < COUNT(rows); i++)
		for (size_t room = 0; room < LEAST; room++)
			play_lab(&rows[i], key_of(rows[i].pin_key), key_of(rows[i].pvk), room);
	play_lab(&longest, key_of(longest.pin_key), key_of(longest.pvk), LEAST);
}

/* A command that is in order, and where its PIN block begins. */
struct holder {
	const char *source;
	size_t header;
	struct text command;
	size_t block_at;
};

static const struct holder holders[] = {
	{ "the header, PIN block of BK", 4, TEXT(COMMAND), 75 },
	{ "the header, PIN block of DA", 4, TEXT(VERIFICATION("DA")), 74 },
	{ "the header, PIN block of EA", 4, TEXT(VERIFICATION("EA")), 74 },
	{ "the header, PIN block behind T keys", 4, TEXT(WITH_KEYS("002" LONG_KEY LONG_KEY)), 107 },
	{ "the header, PIN block behind key blocks", 4,
		TEXT(WITH_KEYS("FFF" "S1002072TB00N0003more" PVK_BLOCK("03")) ";00%03" TRAILER_MARK), 47 },
	{ "the header, PIN block under no header", 0,
		TEXT("DA" TWO_KEYS "12" ZEROS "01" "04" PAPER_ACCOUNT PAPER_TABLE PAPER_VALIDATION
			PAPER_OFFSET), 70 },
};

/* Has the PIN block of a command handed out. Its command is lent as a copy. */
static void play_block(const struct holder *h, const char *command, size_t room, uint32_t number,
	const uint8_t *block)
{
	char lent[LONGEST_COMMAND];
	uint8_t out[LENT];
	qg_settings settings = USUAL_WITH(h->header, 0);

	memcpy(lent, command, h->command.len);
	untouched(out);
	qg_reply reply = qg_pin_block(settings, characters(lent), h->command.len, out, room);
	hold("its PIN block", h->source, reply, out, number, block, number == 0 ? BLOCK : 0);
	hold_kept("its PIN block", h->source, characters(lent), characters(command), h->command.len);
}

/* Every nibble at every place of the block, and then every room. */
static void play_blocks(const struct holder *h)
{
	static const char hex[] = "0123456789ABCDEF";
	char command[LONGEST_COMMAND];
	uint8_t block[BLOCK];

	for (size_t shift = 0; shift < 2 * BLOCK; shift++) {
		char digits[2 * BLOCK + 1] = "";

		for (size_t i = 0; i < 2 * BLOCK; i++)
			digits[i] = hex[(i + shift) % (2 * BLOCK)];
		memcpy(command, h->command.at, h->command.len);
		memcpy(command + h->block_at, digits, 2 * BLOCK);
		block_of(digits, block);
		play_block(h, command, LENT, 0, block);
	}
	for (size_t room = 0; room <= 2 * PIN_BLOCK_LEAST; room++)
		play_block(h, command, room, room < PIN_BLOCK_LEAST ? 901 : 0, block);
}

void lab_vectors(void)
{
	for (size_t i = 0; i < COUNT(exchanges); i++)
		play_lab(&exchanges[i], key_of(exchanges[i].pin_key), key_of(exchanges[i].pvk), LENT);
	refuse_lengths(&refused_length);
	refuse_lengths(&refused_verification);
	refuse_parities(PIN_KEY, PVK_2);
	refuse_parities(LONG_PIN_KEY, PVK_3);
	play_rooms();
	for (size_t i = 0; i < COUNT(holders); i++)
		play_blocks(&holders[i]);
}
