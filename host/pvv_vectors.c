/*
 * ABA PVV: its input, the PVVs that the paper prints, and the verdict on each
 * of them, as it is and with each of its digits changed.
 */
#include <stdio.h>

#include "vectors.h"

#define KEY_INDEX 1

/* An enciphered input and its PVV. */
struct printed {
	const char *source;
	const char *enciphered;
	const char *pvv;
};

static const struct printed printed[] = {
	{ "paper P11, digits and letters", "0A5FC3E17B2D9488", "0531" },
	{ "paper P11, two digits", "ABCDEFABCDEF1AB2", "1201" },
	{ "paper P11, no digit", "FFFFFFFFFFFFFFFF", "5555" },
};

/* The paper prints no input: this one is its sentence followed by hand, eleven
 * account digits, the index, four PIN digits. */
static void make_input(void)
{
	uint8_t block[BLOCK], input[BLOCK], out[LENT];

	block_of(paper_block, block);
	block_of("0000012345613456", input);
	untouched(out);
	qg_reply reply = qg_pvv_input(PAPER_FORMAT, KEY_INDEX, block, BLOCK,
		characters(paper_account), ACCOUNT, out, LENT);
	hold("PVV input", "paper, PVV", reply, out, 0, input, BLOCK);
}

static void refuse_input(void)
{
	uint8_t block[BLOCK], out[LENT];

	block_of(paper_block, block);
	untouched(out);
	qg_reply reply = qg_pvv_input(PAPER_FORMAT, 7, block, BLOCK,
		characters(paper_account), ACCOUNT, out, LENT);
	hold_refused("PVV input, index 7", "paper, PVV", reply, out, 15);
}

static qg_reply verdict_on(const uint8_t *enciphered, const uint8_t *pvv)
{
	uint8_t block[BLOCK];

	block_of(paper_block, block);
	return qg_pvv_verdict(PAPER_FORMAT, KEY_INDEX, block, BLOCK,
		characters(paper_account), ACCOUNT, enciphered, BLOCK, pvv, PVV);
}

/* A PVV verifies as it was made, and not with any one digit changed. */
static void verify_made(const char *source, const uint8_t *enciphered,
	uint8_t *pvv)
{
	char deed[DEED];

	hold_verdict("verdict on the PVV made", source,
		verdict_on(enciphered, pvv), 0);
	for (size_t i = 0; i < PVV; i++) {
		uint8_t digit = pvv[i];

		snprintf(deed, sizeof deed, "verdict with digit %zu changed", i + 1);
		pvv[i] = another_digit(digit);
		hold_verdict(deed, source, verdict_on(enciphered, pvv), 1);
		pvv[i] = digit;
	}
}

static void make_pvv(const struct printed *p)
{
	uint8_t enciphered[BLOCK], out[LENT];

	block_of(p->enciphered, enciphered);
	untouched(out);
	qg_reply reply = qg_pvv(enciphered, BLOCK, out, LENT);
	hold("PVV", p->source, reply, out, 0, characters(p->pvv), PVV);
	verify_made(p->source, enciphered, out);
}

/* A PVV's letters are no digits, whatever they would complete. */
static void refuse_presented(void)
{
	uint8_t enciphered[BLOCK];

	block_of(printed[0].enciphered, enciphered);
	hold_verdict("verdict on 0A53", printed[0].source,
		verdict_on(enciphered, characters("0A53")), 15);
}

static void refuse_instructors(const struct printed *p)
{
	uint8_t block[BLOCK], enciphered[BLOCK], out[LENT];
	const char *source = "request 2, the instructor's block";

	block_of(instructors_block, block);
	block_of(p->enciphered, enciphered);
	untouched(out);
	qg_reply made = qg_pvv_input(INSTRUCTORS_FORMAT, KEY_INDEX, block, BLOCK,
		characters(paper_account), ACCOUNT, out, LENT);
	hold_refused("PVV input", source, made, out, 20);
	qg_reply judged = qg_pvv_verdict(INSTRUCTORS_FORMAT, KEY_INDEX, block, BLOCK,
		characters(paper_account), ACCOUNT, enciphered, BLOCK, characters(p->pvv), PVV);
	hold_verdict("verdict on a PVV", source, judged, 20);
}

void pvv_vectors(void)
{
	make_input();
	refuse_input();
	for (size_t i = 0; i < COUNT(printed); i++)
		make_pvv(&printed[i]);
	refuse_presented();
	refuse_instructors(&printed[0]);
}
