#include "underline.h"

#include <stdio.h>

#include "colour.h"
#include "text.h"

/* What a row's bytes may take. With the place before them, an indent and one ^
 * behind them that stays under 100. */
#define COLUMNS 70

/* Bytes of the command, from one place to before another: those of a row, or
 * those that are underlined. */
struct span {
	size_t from;
	size_t to;
};

static struct span row_at(const struct fields_sent *sent, size_t from)
{
	struct span row = { from, from + text_fitting(sent->at + from, sent->len - from, COLUMNS) };

	return row;
}

static void repeat(char c, size_t count)
{
	while (count-- > 0)
		putchar(c);
}

static void show_bytes(const uint8_t *bytes, struct span row, int indent)
{
	printf("%*s%4zu  ", indent, "", row.from);
	for (size_t i = row.from; i < row.to; i++)
		text_show_byte(stdout, bytes[i]);
	putchar('\n');
}

static void show_marks(const uint8_t *bytes, struct span row, struct span under, int indent)
{
	printf("%*s%4s  %s", indent, "", "", colour_fault());
	for (size_t i = row.from; i < row.to && i < under.to; i++)
		repeat(i < under.from ? ' ' : '^', text_columns(bytes[i]));
	if (under.from == under.to)
		putchar('^');
	printf("%s\n", colour_plain());
}

/* Whether something of a row is underlined. What is empty stands in the row that
 * its place is in, or behind the last. */
static bool marked(struct span row, struct span under, size_t len)
{
	if (under.from == under.to)
		return under.from >= row.from && (under.from < row.to || row.to == len);
	return under.from < row.to && under.to > row.from;
}

void underline_show(const struct fields_sent *sent, const qg_reply *refusal, int indent)
{
	struct span row = { 0, 0 }, under = { refusal->place, fields_fault_end(sent, refusal) };

	do {
		row = row_at(sent, row.to);
		show_bytes(sent->at, row, indent);
		if (marked(row, under, sent->len))
			show_marks(sent->at, row, under, indent);
	} while (row.to < sent->len);
}
