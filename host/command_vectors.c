/*
 * The commands: how an exchange is played through the three calls, and what is
 * alike for all of them: the least output, slices, the longest command. The exchanges
 * themselves stand in the parts that are called at the end. PIN and account are
 * those of the paper's figures, unless said.
 */
#include "command_vectors.h"

#include <string.h>

/* What the calls must be lent at least. */
#define ASK_LEAST 8
#define PIN_BLOCK_LEAST 16
#define ANSWER_LEAST 65

#define LONGEST_COMMAND 4096

/* The block that P12's validation data make, and the block of P9 enciphered:
 * the paper prints the beginning of it. */
static const char asked_block[] = "0123456789A23456";
static const char enciphered_block[] = "9F3C0A7100000000";

/* What a call answers that writes a block. What only the answering call refuses
 * points at nothing there. */
static qg_reply reply_with_block(const struct exchange *e)
{
	qg_reply expected = { e->asked, e->asked == 0 ? BLOCK : 0, 0, 0 };

	if (e->asked != 0) {
		expected.place = e->at.place;
		expected.field = e->at.field;
	}
	return expected;
}

void play_asking(const struct exchange *e, size_t lent)
{
	uint8_t block[BLOCK], out[LENT];

	block_of(asked_block, block);
	untouched(out);
	qg_reply reply = qg_ask(e->settings, characters(e->command.at), e->command.len,
		out, lent);
	hold_reply("asked", e->source, reply, out, reply_with_block(e), block);
}

void play_pin_block(const struct exchange *e, size_t lent)
{
	uint8_t block[BLOCK], out[LENT];

	block_of(ZEROS, block);
	untouched(out);
	qg_reply reply = qg_pin_block(e->settings, characters(e->command.at), e->command.len,
		out, lent);
	hold_reply("its PIN block", e->source, reply, out, reply_with_block(e), block);
}

/* The answering call, also with slices of other lengths than 8. */
static void answer_with(const struct exchange *e, size_t pin_block_len,
	size_t enciphered_len, size_t lent)
{
	uint8_t pin_block[BLOCK + 1] = { 0 }, enciphered[BLOCK + 1] = { 0 }, out[LENT];
	qg_reply expected = { e->answered, (uint32_t)e->response.len, e->at.place, e->at.field };

	block_of(e->pin_block, pin_block);
	block_of(enciphered_block, enciphered);
	untouched(out);
	qg_reply reply = qg_answer(e->settings, e->pin_key_parity_good, e->pvk_parity_good,
		characters(e->command.at), e->command.len, pin_block, pin_block_len,
		enciphered, enciphered_len, out, lent);
	hold_reply("answered", e->source, reply, out, expected, characters(e->response.at));
}

void play_answering(const struct exchange *e, size_t lent)
{
	answer_with(e, BLOCK, BLOCK, lent);
}

void play_slices(const struct exchange *e)
{
	static const size_t lengths[][2] = {
		{ 0, BLOCK }, { BLOCK - 1, BLOCK }, { BLOCK + 1, BLOCK },
		{ BLOCK, 0 }, { BLOCK, BLOCK - 1 }, { BLOCK, BLOCK + 1 },
	};

	for (size_t i = 0; i < COUNT(lengths); i++)
		answer_with(e, lengths[i][0], lengths[i][1], LENT);
}

void play(const struct exchange *rows, size_t count)
{
	for (size_t i = 0; i < count; i++) {
		play_asking(&rows[i], LENT);
		play_pin_block(&rows[i], LENT);
		play_answering(&rows[i], LENT);
	}
}

/* An output that is one byte too short comes before all else, also before a
 * header setting that makes no frame or a field at fault, and where the response
 * is a short one. */
static void refuse_short_output(void)
{
	static const struct exchange bare[] = {
		{ "paper, output: one byte too short", USUAL_WITH(17, 0), GOOD, TEXT(COMMAND),
			901, 901, NOWHERE, TEXT("") },
		{ "paper, output: one byte too short for a DA", USUAL, GOOD, TEXT(VERIFICATION("DA")),
			901, 901, NOWHERE, TEXT("") },
		{ "request 4, 901: points at nothing", USUAL, GOOD, TEXT(WITH_CHECK("13")),
			901, 901, NOWHERE, TEXT("") },
	};

	for (size_t i = 0; i < COUNT(bare); i++) {
		play_asking(&bare[i], ASK_LEAST - 1);
		play_pin_block(&bare[i], PIN_BLOCK_LEAST - 1);
		play_answering(&bare[i], ANSWER_LEAST - 1);
	}
}

/* The longest response takes all of the least output. */
static void fill_least_output(void)
{
	static const struct exchange longest = {
		"paper, output: the longest response", USUAL_WITH(16, 1), GOOD,
		TEXT(HEADER_16 "BK" HEX_KEYS ZEROS "01" "04" PAPER_ACCOUNT PAPER_TABLE PAPER_VALIDATION
			TRAILER_MARK TRAILER_32),
		0, 0, NOWHERE, TEXT(HEADER_16 "BL" "00" "49247FFFFFFF" TRAILER_MARK TRAILER_32),
	};

	play_asking(&longest, ASK_LEAST);
	play_pin_block(&longest, PIN_BLOCK_LEAST);
	play_answering(&longest, ANSWER_LEAST);
}

/* Slices are judged behind the fields and before the parities. */
static void refuse_slices(void)
{
	static const struct exchange bad_parities[] = {
		{ "paper, slices", USUAL, PARITIES(0, 0), TEXT(COMMAND),
			0, 15, AT(135, 0), TEXT("HDR1BL15") },
		{ "paper, slices of an EA", USUAL, PARITIES(0, 0), TEXT(VERIFICATION("EA")),
			0, 15, AT(146, 0), TEXT("HDR1EB15") },
		{ "request 4, slices: the command's length, its trailer counted in", USUAL, PARITIES(0, 0),
			TEXT(COMMAND ";00%03" TRAILER_MARK "end"), 0, 15, AT(145, 0), TEXT("HDR1BL15") },
		{ "request 4, slices: the command's length, of a DA", USUAL, PARITIES(0, 0),
			TEXT(VERIFICATION("DA") TRAILER_MARK TRAILER_32),
			0, 15, AT(179, 0), TEXT("HDR1DB15") },
		{ "paper, slices: behind the fields", USUAL, PARITIES(0, 0), TEXT(WITH_CHECK("13")),
			15, 15, AT(93, 6), TEXT("HDR1BL15") },
		{ "paper, slices: behind the command code", USUAL, PARITIES(0, 0), TEXT(WITH_CODE("EE")),
			68, 68, NOWHERE, TEXT("HDR1EF68") },
	};

	for (size_t i = 0; i < COUNT(bad_parities); i++)
		play_slices(&bad_parities[i]);
}

/* A command of 4,096 bytes has a frame, one byte more has none. */
static void lengthen(void)
{
	static char long_command[LONGEST_COMMAND + 1];
	struct exchange longest = {
		"paper, no frame: 4,096 bytes and one more", USUAL, GOOD,
		{ long_command, LONGEST_COMMAND }, 68, 68, NOWHERE, TEXT("AAAAAB68"),
	};
	struct exchange beyond = longest;

	memset(long_command, 'A', sizeof long_command);
	beyond.command.len = LONGEST_COMMAND + 1;
	beyond.asked = beyond.answered = 902;
	beyond.response.len = 0;
	play(&longest, 1);
	play(&beyond, 1);
}

static void give_usual(void)
{
	qg_settings got = qg_usual();
	uint8_t same = got.header == 4 && got.restricted == 1 && got.variable == 0;
	qg_reply reply = { .number = same ? 0 : 1 };

	hold_verdict("usual settings", "paper, settings, and request 5", reply, 0);
}

void command_vectors(void)
{
	bk_vectors();
	verification_vectors();
	place_vectors();
	refuse_short_output();
	fill_least_output();
	refuse_slices();
	lengthen();
	give_usual();
}
