/*
 * What the vectors of the commands share: the paper's command in pieces, an
 * exchange, and how one is played through the three calls.
 */
#ifndef HOST_COMMAND_VECTORS_H
#define HOST_COMMAND_VECTORS_H

#include "vectors.h"

/* The paper's command in pieces. Each macro is the whole command with another
 * piece in one place; optional fields are written behind it. */
#define ZEROS "0000000000000000"
#define HEX_KEY "U" ZEROS ZEROS
#define LONG_KEY "T" ZEROS ZEROS ZEROS
#define HEX_KEYS "001" HEX_KEY HEX_KEY
#define PAPER_ACCOUNT "400000123456"
#define PAPER_TABLE "0123456789012345"
#define PAPER_VALIDATION "0123456789AN"
#define COMMAND_OF(code, keys, format, check, table) \
	"HDR1" code keys ZEROS format check PAPER_ACCOUNT table PAPER_VALIDATION

#define COMMAND WITH_CODE("BK")
#define WITH_CODE(code) COMMAND_OF(code, HEX_KEYS, "01", "04", PAPER_TABLE)
#define WITH_KEYS(keys) COMMAND_OF("BK", keys, "01", "04", PAPER_TABLE)
#define WITH_FORMAT(format) COMMAND_OF("BK", HEX_KEYS, format, "04", PAPER_TABLE)
#define WITH_CHECK(check) COMMAND_OF("BK", HEX_KEYS, "01", check, PAPER_TABLE)
#define WITH_TABLE(table) COMMAND_OF("BK", HEX_KEYS, "01", "04", table)

/* DA or EA on the same PIN, and the same with another piece in one place. */
#define TWO_KEYS HEX_KEY HEX_KEY
#define PAPER_OFFSET "9247FFFFFFFF"
#define VERIFICATION_OF(code, keys, most, format, check, table, offset) \
	"HDR1" code keys most ZEROS format check PAPER_ACCOUNT table PAPER_VALIDATION offset

#define VERIFICATION(code) VERIFY(code, "04", PAPER_OFFSET)
#define VERIFY(code, check, offset) \
	VERIFICATION_OF(code, TWO_KEYS, "12", "01", check, PAPER_TABLE, offset)
#define VERIFY_UNDER(code, keys) \
	VERIFICATION_OF(code, keys, "12", "01", "04", PAPER_TABLE, PAPER_OFFSET)
#define VERIFY_MOST(most) \
	VERIFICATION_OF("DA", TWO_KEYS, most, "01", "04", PAPER_TABLE, PAPER_OFFSET)
#define VERIFY_FORMAT(format) \
	VERIFICATION_OF("DA", TWO_KEYS, "12", format, "04", PAPER_TABLE, PAPER_OFFSET)
#define VERIFY_TABLE(table) \
	VERIFICATION_OF("DA", TWO_KEYS, "12", "01", "04", table, PAPER_OFFSET)

/* Key blocks of the shortest length, with usage and mode, or with an LMK id: the
 * letter and 16 characters. */
#define PIN_KEY_FOR(usage, mode, id) "S10016" usage "T" mode "00N00" id
#define PVK_FOR(mode, id) "S00016V1T" mode "00N00" id
#define PIN_KEY_BLOCK(id) PIN_KEY_FOR("72", "B", id)
#define PVK_BLOCK(id) PVK_FOR("N", id)

#define TRAILER_MARK "\x19"
#define TRAILER_32 "0123456789;%ABCDEFGHIJ abcdefgh~"
#define HEADER_16 "sixteen printed."

/* Characters with their count: a response may hold a byte 00. */
struct text {
	const char *at;
	size_t len;
};

#define TEXT(literal) { literal, sizeof (literal) - 1 }

/* What a refusal points at: a byte of the command, counted from 0, the header
 * counted in, and the number of a field. */
struct spot {
	uint32_t place;
	uint32_t field;
};

#define AT(place, field) { place, field }
#define NOWHERE { 0, 0 }

/* A command with what the key box makes of it and what it must be answered: the
 * number of the asking call, which is that of the PIN block's too, that of the
 * answering call, what they point at, and the response. */
struct exchange {
	const char *source;
	qg_settings settings;
	uint8_t pin_key_parity_good;
	uint8_t pvk_parity_good;
	const char *pin_block;
	struct text command;
	uint32_t asked;
	uint32_t answered;
	struct spot at;
	struct text response;
};

#define PARITIES(pin_key, pvk) pin_key, pvk, paper_block
#define GOOD PARITIES(1, 1)
#define GOOD_WITH(block) 1, 1, block

/* The asking call in an output of which so many bytes are lent, the call that
 * hands out the PIN block, which is ZEROS throughout, and the answering call. */
void play_asking(const struct exchange *e, size_t lent);
void play_pin_block(const struct exchange *e, size_t lent);
void play_answering(const struct exchange *e, size_t lent);

/* The answering call with slices of every other length than 8 that is near. */
void play_slices(const struct exchange *e);

/* The three calls for each. */
void play(const struct exchange *rows, size_t count);

/* The parts of the commands' vectors. */
void bk_vectors(void);
void verification_vectors(void);
void place_vectors(void);

#endif
