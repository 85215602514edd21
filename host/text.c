#include "text.h"

#include <string.h>

#define LOWEST_PRINTABLE 0x20
#define HIGHEST_PRINTABLE 0x7E

/* The value of a capital hex digit, or -1. */
static int hex_value(char c)
{
	if (c >= '0' && c <= '9')
		return c - '0';
	if (c >= 'A' && c <= 'F')
		return c - 'A' + 10;
	return -1;
}

/* Reads the two hex digits of a byte. */
static bool read_pair(const char *digits, uint8_t *byte)
{
	int high = hex_value(digits[0]);
	/* where the words end at the first, there is no second to look at */
	int low = high < 0 ? -1 : hex_value(digits[1]);

	if (low < 0)
		return false;
	*byte = (uint8_t)(high * 16 + low);
	return true;
}

static const char *put(struct text_bytes *to, uint8_t byte)
{
	if (to->len == to->most)
		return "this is longer than the place for it";
	to->at[to->len++] = byte;
	return NULL;
}

static bool printable(uint8_t byte)
{
	return byte >= LOWEST_PRINTABLE && byte <= HIGHEST_PRINTABLE;
}

/* Reads what stands for one byte and moves behind it. */
static const char *read_one(const char **words, uint8_t *byte)
{
	const char *at = *words;

	*byte = (uint8_t)at[0];
	*words = at + 1;
	if (!printable(*byte))
		return "a character that is not printable: write it \\xHH";
	if (at[0] != '\\')
		return NULL;
	*words = at + 2;
	if (at[1] == '\\')
		return NULL;
	if (at[1] != 'x' || !read_pair(at + 2, byte))
		return "behind a backslash stands another, or x and two hex digits in capitals";
	*words = at + 4;
	return NULL;
}

const char *text_read(const char *words, struct text_bytes *to)
{
	const char *fault = NULL;

	while (fault == NULL && *words != '\0') {
		uint8_t byte;

		fault = read_one(&words, &byte);
		if (fault == NULL)
			fault = put(to, byte);
	}
	return fault;
}

const char *text_read_hex(const char *words, struct text_bytes *to)
{
	const char *fault = NULL;

	while (fault == NULL && *words != '\0') {
		uint8_t byte;

		if (*words == ' ' || *words == '\t') {
			words++;
			continue;
		}
		if (!read_pair(words, &byte))
			return "bytes are written as two hex digits each, letters in capitals";
		words += 2;
		fault = put(to, byte);
	}
	return fault;
}

size_t text_trimmed(const char *line, size_t len)
{
	while (len > 0 && strchr(TEXT_BLANKS "\r", line[len - 1]) != NULL)
		len--;
	return len;
}

bool text_read_number(const char **words, size_t figures, uint32_t *number)
{
	const char *at = *words;

	for (*number = 0; figures > 0 && *at >= '0' && *at <= '9'; figures--, at++)
		*number = *number * 10 + (uint32_t)(*at - '0');
	bool read = at > *words;
	*words = at;
	return read;
}

bool text_is_number(const char *words, uint32_t *number)
{
	return text_read_number(&words, TEXT_FIGURES, number) && *words == '\0';
}

size_t text_columns(uint8_t byte)
{
	if (!printable(byte))
		return strlen("\\xHH");
	return byte == '\\' ? strlen("\\\\") : 1;
}

size_t text_fitting(const uint8_t *bytes, size_t len, size_t columns)
{
	size_t n = 0;

	for (size_t used = 0; n < len; n++) {
		used += text_columns(bytes[n]);
		if (used > columns)
			break;
	}
	return n;
}

void text_show_byte(FILE *stream, uint8_t byte)
{
	if (!printable(byte))
		fprintf(stream, "\\x%02X", byte);
	else if (byte == '\\')
		fputs("\\\\", stream);
	else
		putc(byte, stream);
}

void text_show(FILE *stream, const uint8_t *bytes, size_t len)
{
	for (size_t i = 0; i < len; i++) {
		bool end = i == 0 || i + 1 == len;

		if (end && bytes[i] == ' ')
			fprintf(stream, "\\x%02X", bytes[i]);
		else
			text_show_byte(stream, bytes[i]);
	}
}

void text_show_hex(FILE *stream, const uint8_t *bytes, size_t len)
{
	for (size_t i = 0; i < len; i++)
		fprintf(stream, i == 0 ? "%02X" : " %02X", bytes[i]);
}
