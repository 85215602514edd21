/*
 * Blocks: each printed block is written and read back, and translated into
 * every other that is printed for its PIN and account, under No and under the
 * usual settings. Those that the paper or the second request of document 02 has
 * refused are read and translated.
 */
#include <stdbool.h>
#include <stdio.h>
#include <string.h>

#include "vectors.h"

/* A block that a paper prints for a PIN. Fill bytes are 00 throughout. */
struct vector {
	const char *source;
	uint32_t format;
	const char *pin;
	const char *account;
	const char *block;
};

/* A block that a paper or a request has refused. */
struct refused {
	const char *source;
	uint32_t format;
	const char *block;
	uint32_t number;
};

/*
 * Where a source's print is damaged, the block is the whole of what the print
 * shows the beginning of:
 *   - source 002 prints fifteen hex characters of its blocks, one F short; in
 *     A.3 it prints A.1's block beside another PIN, and A.3 is left out;
 *   - source 001 prints six characters of A.2's block and garbles the fill of
 *     A.1's.
 * Neither source names an account: format 34 does not use it.
 */
static const struct vector vectors[] = {
	{ "paper P1; source 000, 11.2.5", 35, "34567", "400000123456", "2534167FFFEDCBA9" },
	{ "paper P2", 1, "34567", "400000123456", "0534167FFFEDCBA9" },
	{ "paper P3", 47, "34567", "400000123456", "3534167AAAB89EFC" },
	{ "paper P4", 5, "34567", "400000123456", "1534567000000000" },
	{ "paper P5", 3, "34567", "400000123456", "34567FFFFFFFFFFF" },
	{ "paper P6", 34, "123456789012", "400000123456", "2C123456789012FF" },
	{ "source 000, 11.2.1", 1, "92389", "400000123456", "0592789FFFEDCBA9" },
	{ "source 000, 11.2.2", 3, "92389", "400000123456", "92389FFFFFFFFFFF" },
	{ "source 000, 11.2.4", 34, "34567", "400000123456", "2534567FFFFFFFFF" },
	{ "source 001, A.1.2; source 002, A.1.2", 34, "1234567", "000000000000", "271234567FFFFFFF" },
	{ "source 001, A.2.2", 34, "1234", "000000000000", "241234FFFFFFFFFF" },
	{ "source 001, A.3.2", 34, "3247839010", "000000000000", "2A3247839010FFFF" },
	{ "source 002, A.2.2", 34, "1234487", "000000000000", "271234487FFFFFFF" },
};

static const struct refused refusals[] = {
	{ "paper P7, three digits", 34, "23123FFFFFFFFFFF", 24 },
	{ "paper P7, thirteen digits", 34, "2D1234567890123F", 24 },
	{ "paper P7, thirteen and no digits", 34, "2D00000000000000", 24 },
	{ "paper P8", 34, "24123AFFFFFFFFFF", 20 },
	{ "request 2, the instructor's block", INSTRUCTORS_FORMAT, instructors_block, 20 },
	{ "request 2, the last nibble alone is no F", 3, "1234FFFFFFFFFFFE", 20 },
	{ "request 2, one of three nibbles behind twelve digits and F", 3, "123456789012F0FF", 20 },
	{ "paper, format 03: a letter before the first F", 3, "1AFFFFFFFFFFFFFF", 20 },
	{ "request 2, a letter before it and rubbish behind", 3, "1AF9900000000000", 20 },
	{ "request 2, three digits and rubbish behind the F", 3, "123F990000000000", 24 },
	{ "request 2, thirteen digits and rubbish behind the F", 3, "1234567890123F99", 24 },
	{ "paper, format 03: sixteen digits", 3, "1234567890123456", 24 },
};

static const uint8_t zero_fill[BLOCK];

static void write_vector(const struct vector *v)
{
	uint8_t pin[PIN_MOST], block[BLOCK], out[LENT];
	size_t pin_len = digits_of(v->pin, pin);

	block_of(v->block, block);
	untouched(out);
	qg_reply reply = qg_write_block(v->format, pin, pin_len,
		characters(v->account), ACCOUNT, zero_fill, BLOCK, out, LENT);
	hold("written", v->source, reply, out, 0, block, BLOCK);
}

static void read_vector(const struct vector *v)
{
	uint8_t pin[PIN_MOST], block[BLOCK], out[LENT];
	size_t pin_len = digits_of(v->pin, pin);

	block_of(v->block, block);
	untouched(out);
	qg_reply reply = qg_read_block(v->format, block, BLOCK,
		characters(v->account), ACCOUNT, out, LENT);
	hold("read", v->source, reply, out, 0, pin, pin_len);
}

static void refuse_vector(const struct refused *r)
{
	uint8_t block[BLOCK], out[LENT];

	block_of(r->block, block);
	untouched(out);
	qg_reply reply = qg_read_block(r->format, block, BLOCK,
		characters(paper_account), ACCOUNT, out, LENT);
	hold_refused("read", r->source, reply, out, r->number);
}

/* A translation reads as the reading call does. */
static void refuse_translation(const struct refused *r)
{
	uint8_t block[BLOCK], out[LENT];

	block_of(r->block, block);
	untouched(out);
	qg_reply reply = qg_translate(unrestricted, r->format, PAPER_FORMAT, block, BLOCK,
		characters(paper_account), ACCOUNT, zero_fill, BLOCK, out, LENT);
	hold_refused("translated", r->source, reply, out, r->number);
}

/* Two printed blocks of one PIN and one account are translations of each other,
 * where the settings allow it. */
static void translate_vector(qg_settings settings, const struct vector *from,
	const struct vector *to, bool allowed)
{
	uint8_t read[BLOCK], written[BLOCK], out[LENT];
	char deed[DEED];

	snprintf(deed, sizeof deed, "translated to format %02u, restricted %u",
		(unsigned)to->format, (unsigned)settings.restricted);
	block_of(from->block, read);
	block_of(to->block, written);
	untouched(out);
	qg_reply reply = qg_translate(settings, from->format, to->format, read, BLOCK,
		characters(from->account), ACCOUNT, zero_fill, BLOCK, out, LENT);
	if (allowed)
		hold(deed, from->source, reply, out, 0, written, BLOCK);
	else
		hold_refused(deed, from->source, reply, out, 69);
}

/* "Restricted: 05 to 01, 47, 05; 01 and 47 to 01, 47; every other built pair is
 * 69." */
static bool is_restricted_pair(uint32_t from, uint32_t to)
{
	bool to_01_or_47 = to == 1 || to == 47;

	return from == 5 ? to_01_or_47 || to == 5 : (from == 1 || from == 47) && to_01_or_47;
}

static void translate_to_all(const struct vector *from)
{
	for (size_t i = 0; i < COUNT(vectors); i++)
		if (strcmp(from->pin, vectors[i].pin) == 0 &&
			strcmp(from->account, vectors[i].account) == 0) {
			translate_vector(unrestricted, from, &vectors[i], true);
			translate_vector(usual, from, &vectors[i],
				is_restricted_pair(from->format, vectors[i].format));
		}
}

void block_vectors(void)
{
	for (size_t i = 0; i < COUNT(vectors); i++) {
		write_vector(&vectors[i]);
		read_vector(&vectors[i]);
		translate_to_all(&vectors[i]);
	}
	for (size_t i = 0; i < COUNT(refusals); i++) {
		refuse_vector(&refusals[i]);
		refuse_translation(&refusals[i]);
	}
}
