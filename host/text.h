/*
 * How bytes stand in a class script, and how they are shown: as text, or in
 * hex. What is shown can be read again.
 *
 *   text   printable characters (20 to 7E hex) stand for themselves, \xHH for
 *          any other byte, \\ for a backslash. Spaces at either end of a text
 *          do not count: one that is meant is written \x20.
 *   hex    two hex digits a byte, with spaces where one likes
 *
 * Hex letters are capitals, as everywhere in the paper.
 */
#ifndef HOST_TEXT_H
#define HOST_TEXT_H

#include <stdbool.h>
#include <stddef.h>
#include <stdint.h>
#include <stdio.h>

/* Bytes with their count, in a place that holds `most`. */
struct text_bytes {
	uint8_t *at;
	size_t len;
	size_t most;
};

/* Both read words to their end and put the bytes behind those that are there.
 * They answer what is wrong with the words, or NULL. */
const char *text_read(const char *words, struct text_bytes *to);
const char *text_read_hex(const char *words, struct text_bytes *to);

/* What stands between the words of a line. */
#define TEXT_BLANKS " \t"

/* How long a line is without what does not count at its end: blanks, and a
 * carriage return. */
size_t text_trimmed(const char *line, size_t len);

/* No number in a script has more figures, but for a place. */
#define TEXT_FIGURES 3

/* Reads one decimal figure or more, at most `figures`, and moves behind them. */
bool text_read_number(const char **words, size_t figures, uint32_t *number);

/* Reads words that are a number of one to three figures and nothing else. */
bool text_is_number(const char *words, uint32_t *number);

void text_show(FILE *stream, const uint8_t *bytes, size_t len);
void text_show_hex(FILE *stream, const uint8_t *bytes, size_t len);

/* One byte as text_show shows it inside a text, and how many columns that
 * takes: 1, 2 or 4. */
void text_show_byte(FILE *stream, uint8_t byte);
size_t text_columns(uint8_t byte);

/* How many of the bytes so many columns hold, when they are shown one by one. */
size_t text_fitting(const uint8_t *bytes, size_t len, size_t columns);

#endif
