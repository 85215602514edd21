/*
 * IBM 3624: the validation block, the natural PIN, and offsets, made from a
 * block and from digits. Each offset that was made must verify, and must no
 * longer do so with any one of its digits changed.
 */
#include <stdio.h>
#include <string.h>

#include "vectors.h"

static const char table[] = "0123456789012345";

/* P9 prints the beginning of the enciphered block and must hold for any tail. */
static const char *const enciphered_blocks[] = {
	"9F3C0A7100000000",
	"9F3C0A71FFFFFFFF",
};

/* Validation data and the block that they make. */
struct validation {
	const char *source;
	const char *data;
	const char *block;
};

/* What is made of P9's block: an offset, or the number that refuses it. */
struct made {
	const char *source;
	uint8_t variable;
	uint32_t check;
	uint32_t number;
	const char *offset;
};

/* The same of digits handed in, with the differences behind the offset. */
struct handed {
	const char *source;
	uint8_t variable;
	uint32_t check;
	const char *pin;
	const char *natural;
	uint32_t number;
	const char *offset;
	int8_t differences[PIN_MOST];
	size_t covered;
};

/* An offset presented for P9's block, and the verdict. */
struct presented {
	const char *source;
	uint8_t variable;
	uint32_t check;
	const char *offset;
	uint32_t number;
};

static const struct validation validations[] = {
	{ "paper P12", "0123456789AN", "0123456789A23456" },
	{ "paper P12's block in the form with P", "P0123456789A23456", "0123456789A23456" },
};

static const struct made offsets_made[] = {
	{ "paper P9, check 4", 0, 4, 0, "9247FFFFFFFF" },
	{ "paper P9, check 5", 0, 5, 0, "49247FFFFFFF" },
	{ "paper P9, check 6", 0, 6, 81, "" },
	{ "paper P9, variable length, check 4", 1, 4, 0, "49247FFFFFFF" },
	{ "paper P9, variable length, check 12", 1, 12, 0, "49247FFFFFFF" },
};

static const struct handed digits_handed[] = {
	{ "paper P9, check 4", 0, 4, "34567", "95320", 0, "9247FFFFFFFF", { -1, 2, 4, 7 }, 4 },
	{ "paper P9, check 5", 0, 5, "34567", "95320", 0, "49247FFFFFFF", { -6, -1, 2, 4, 7 }, 5 },
	{ "paper P9, check 6", 0, 6, "34567", "95320", 81, "", { 0 }, 0 },
	{ "paper P9, variable length, check 4", 1, 4, "34567", "95320", 0, "49247FFFFFFF",
		{ -6, -1, 2, 4, 7 }, 5 },
	{ "paper P10", 0, 4, "45678", "06431", 0, "9247FFFFFFFF", { -1, 2, 4, 7 }, 4 },
};

static const struct presented offsets_presented[] = {
	{ "paper P9, more digits than are covered", 0, 4, "49247FFFFFFF", 81 },
	{ "paper P9, fewer digits than are covered", 0, 5, "9247FFFFFFFF", 81 },
	{ "paper P9, check longer than the PIN", 0, 6, "049247FFFFFF", 81 },
	{ "paper P9, variable length, four digits", 1, 4, "9247FFFFFFFF", 81 },
	{ "paper P9, three digits", 0, 4, "924FFFFFFFFF", 15 },
	{ "paper P9, a digit behind the F", 0, 4, "9247FFFFFFF7", 15 },
};

static qg_settings settings_with(uint8_t variable)
{
	qg_settings settings = usual;

	settings.variable = variable;
	return settings;
}

static void make_validation(const struct validation *v)
{
	uint8_t block[BLOCK], out[LENT];

	block_of(v->block, block);
	untouched(out);
	qg_reply reply = qg_validation_block(characters(v->data), strlen(v->data),
		characters(paper_account), ACCOUNT, out, LENT);
	hold("validation block", v->source, reply, out, 0, block, BLOCK);
}

static void make_natural(const uint8_t *enciphered)
{
	uint8_t natural[PIN_MOST], out[LENT];
	size_t len = digits_of("95320", natural);

	untouched(out);
	qg_reply reply = qg_natural_pin((uint32_t)len, characters(table), TABLE,
		enciphered, BLOCK, out, LENT);
	hold("natural PIN", "paper P9", reply, out, 0, natural, len);
}

static qg_reply verdict_on(uint8_t variable, uint32_t check,
	const uint8_t *enciphered, const uint8_t *offset)
{
	uint8_t block[BLOCK];

	block_of(paper_block, block);
	return qg_offset_verdict(settings_with(variable), PAPER_FORMAT, check,
		block, BLOCK, characters(paper_account), ACCOUNT, characters(table), TABLE,
		enciphered, BLOCK, offset, OFFSET);
}

/* An offset verifies as it was made, and not with any one digit changed. */
static void verify_made(const struct made *m, const uint8_t *enciphered,
	uint8_t *offset)
{
	size_t digits = strcspn(m->offset, "F");
	char deed[DEED];

	hold_verdict("verdict on the offset made", m->source,
		verdict_on(m->variable, m->check, enciphered, offset), 0);
	for (size_t i = 0; i < digits; i++) {
		uint8_t digit = offset[i];

		snprintf(deed, sizeof deed, "verdict with digit %zu changed", i + 1);
		offset[i] = another_digit(digit);
		hold_verdict(deed, m->source,
			verdict_on(m->variable, m->check, enciphered, offset), 1);
		offset[i] = digit;
	}
}

static void make_offset(const struct made *m, const uint8_t *enciphered)
{
	uint8_t block[BLOCK], out[LENT];

	block_of(paper_block, block);
	untouched(out);
	qg_reply reply = qg_offset(settings_with(m->variable), PAPER_FORMAT, m->check,
		block, BLOCK, characters(paper_account), ACCOUNT, characters(table), TABLE,
		enciphered, BLOCK, out, LENT);
	hold("offset", m->source, reply, out, m->number, characters(m->offset),
		strlen(m->offset));
	if (m->number == 0)
		verify_made(m, enciphered, out);
}

static void offset_of_handed(const struct handed *h)
{
	uint8_t pin[PIN_MOST], natural[PIN_MOST], out[LENT];
	size_t pin_len = digits_of(h->pin, pin);
	size_t natural_len = digits_of(h->natural, natural);

	untouched(out);
	qg_reply reply = qg_offset_of_digits(settings_with(h->variable), h->check,
		pin, pin_len, natural, natural_len, out, LENT);
	hold("offset of digits", h->source, reply, out, h->number,
		characters(h->offset), strlen(h->offset));
}

/* A signed byte and the byte that holds it may be read as each other. */
static void differences_of_handed(const struct handed *h)
{
	uint8_t pin[PIN_MOST], natural[PIN_MOST], out[LENT];
	size_t pin_len = digits_of(h->pin, pin);
	size_t natural_len = digits_of(h->natural, natural);

	untouched(out);
	qg_reply reply = qg_differences(settings_with(h->variable), h->check,
		pin, pin_len, natural, natural_len, (int8_t *)out, LENT);
	hold("differences", h->source, reply, out, h->number,
		(const uint8_t *)h->differences, h->covered);
}

static void of_enciphered(const char *hex)
{
	uint8_t enciphered[BLOCK];

	block_of(hex, enciphered);
	make_natural(enciphered);
	for (size_t i = 0; i < COUNT(offsets_made); i++)
		make_offset(&offsets_made[i], enciphered);
	for (size_t i = 0; i < COUNT(offsets_presented); i++) {
		const struct presented *p = &offsets_presented[i];

		hold_verdict("verdict", p->source, verdict_on(p->variable, p->check,
			enciphered, characters(p->offset)), p->number);
	}
}

/* Of PIN 1234 the offset would be 2702. */
static void refuse_instructors(const char *hex)
{
	uint8_t block[BLOCK], enciphered[BLOCK], out[LENT];
	const char *source = "request 2, the instructor's block";

	block_of(instructors_block, block);
	block_of(hex, enciphered);
	untouched(out);
	qg_reply made = qg_offset(usual, INSTRUCTORS_FORMAT, 4, block, BLOCK,
		characters(paper_account), ACCOUNT, characters(table), TABLE,
		enciphered, BLOCK, out, LENT);
	hold_refused("offset", source, made, out, 20);
	qg_reply judged = qg_offset_verdict(usual, INSTRUCTORS_FORMAT, 4, block, BLOCK,
		characters(paper_account), ACCOUNT, characters(table), TABLE,
		enciphered, BLOCK, characters("2702FFFFFFFF"), OFFSET);
	hold_verdict("verdict", source, judged, 20);
}

void offset_vectors(void)
{
	for (size_t i = 0; i < COUNT(validations); i++)
		make_validation(&validations[i]);
	for (size_t i = 0; i < COUNT(enciphered_blocks); i++)
		of_enciphered(enciphered_blocks[i]);
	for (size_t i = 0; i < COUNT(digits_handed); i++) {
		offset_of_handed(&digits_handed[i]);
		differences_of_handed(&digits_handed[i]);
	}
	refuse_instructors(enciphered_blocks[0]);
}
