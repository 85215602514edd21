/*
 * vectors: the printed examples of the papers and of the requests, each beside
 * the name of the place that prints it, what must follow from them, and NIST's
 * known answers for DES, played through the C face. The last line is 'vectors: N passed, M failed'.
 */
#include "vectors.h"

#include <stdbool.h>
#include <stdio.h>
#include <string.h>

const qg_settings usual = USUAL;
const qg_settings unrestricted = UNRESTRICTED;
const char paper_account[] = "400000123456";
const char paper_block[] = "0534167FFFEDCBA9";
const char instructors_block[] = "1234FF9900000000";

static unsigned passed, failed;

static uint8_t hex_digit(char c)
{
	return (uint8_t)(c <= '9' ? c - '0' : c - 'A' + 10);
}

static uint8_t hex_byte(const char *hex)
{
	return (uint8_t)(hex_digit(hex[0]) << 4 | hex_digit(hex[1]));
}

void block_of(const char *hex, uint8_t *block)
{
	for (size_t i = 0; i < BLOCK; i++)
		block[i] = hex_byte(hex + 2 * i);
}

size_t bytes_of(const char *hex, uint8_t *bytes)
{
	size_t len = strlen(hex) / 2;

	for (size_t i = 0; i < len; i++)
		bytes[i] = hex_byte(hex + 2 * i);
	return len;
}

size_t digits_of(const char *digits, uint8_t *values)
{
	size_t len = strlen(digits);

	for (size_t i = 0; i < len; i++)
		values[i] = hex_digit(digits[i]);
	return len;
}

const uint8_t *characters(const char *text)
{
	return (const uint8_t *)text;
}

uint8_t another_digit(uint8_t digit)
{
	return digit == '9' ? '0' : (uint8_t)(digit + 1);
}

void untouched(uint8_t *out)
{
	memset(out, UNTOUCHED, LENT);
}

static void show(const char *name, const uint8_t *bytes)
{
	printf("  %s", name);
	for (size_t i = 0; i < LENT; i++)
		printf(" %02X", bytes[i]);
	putchar('\n');
}

static void show_reply(const char *name, qg_reply reply)
{
	printf("  %s number %02u, written %u, place %u, field %u\n", name,
		(unsigned)reply.number, (unsigned)reply.written, (unsigned)reply.place,
		(unsigned)reply.field);
}

static bool same_reply(qg_reply one, qg_reply other)
{
	return one.number == other.number && one.written == other.written &&
		one.place == other.place && one.field == other.field;
}

void hold_reply(const char *deed, const char *source, qg_reply reply,
	const uint8_t *out, qg_reply expected, const uint8_t *bytes)
{
	uint8_t left[LENT];

	untouched(left);
	memcpy(left, bytes, expected.written);
	if (same_reply(reply, expected) && memcmp(out, left, LENT) == 0) {
		passed++;
		return;
	}
	failed++;
	printf("%s, %s:\n", source, deed);
	show_reply("got     ", reply);
	show("got     ", out);
	show_reply("expected", expected);
	show("expected", left);
}

void hold(const char *deed, const char *source, qg_reply reply,
	const uint8_t *out, uint32_t number, const uint8_t *bytes, size_t len)
{
	qg_reply expected = { number, (uint32_t)len, 0, 0 };

	hold_reply(deed, source, reply, out, expected, bytes);
}

void hold_refused(const char *deed, const char *source, qg_reply reply,
	const uint8_t *out, uint32_t number)
{
	hold(deed, source, reply, out, number, out, 0);
}

void hold_verdict(const char *deed, const char *source, qg_reply reply,
	uint32_t number)
{
	uint8_t none[LENT];

	untouched(none);
	hold_refused(deed, source, reply, none, number);
}

void hold_kept(const char *deed, const char *source, const uint8_t *lent,
	const uint8_t *was, size_t len)
{
	if (len == 0 || memcmp(lent, was, len) == 0) {
		passed++;
		return;
	}
	failed++;
	printf("%s, %s: an input is not as it was\n", source, deed);
}

int main(void)
{
	block_vectors();
	offset_vectors();
	pvv_vectors();
	command_vectors();
	cipher_vectors();
	lab_vectors();
	printf("vectors: %u passed, %u failed\n", passed, failed);
	return failed == 0 && passed > 0 ? 0 : 1;
}
