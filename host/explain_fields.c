#include "explain.h"

#include <stdio.h>
#include <string.h>

#include "colour.h"
#include "text.h"

#define NO_FRAME 902
#define UNKNOWN_CODE 68

/* The columns of the table. */
#define NAME 15
#define CHARACTERS 33
#define MEANING 38

/* A row: bytes of the command with their name and what they mean. */
struct row {
	uint32_t number;  /* of a field; 0: it is none */
	const char *name;
	size_t place;
	const uint8_t *at;
	size_t len;
	const char *words;
	bool faulty;
};

/* Shows as many bytes as the column holds, and moves behind them. */
static void show_bytes(struct row *row)
{
	size_t len = text_fitting(row->at, row->len, CHARACTERS), columns = 0;

	for (size_t i = 0; i < len; i++) {
		columns += text_columns(row->at[i]);
		text_show_byte(stdout, row->at[i]);
	}
	row->at += len;
	row->len -= len;
	if (*row->words != '\0')
		printf("%*s", (int)(CHARACTERS - columns), "");
}

/* How many characters of the words the column holds: a break is at a blank. */
static size_t fitting(const char *words)
{
	size_t len = strlen(words);

	if (len <= MEANING)
		return len;
	for (len = MEANING; len > 0 && words[len] != ' '; len--)
		;
	return len > 0 ? len : MEANING;
}

static void show_words(struct row *row)
{
	size_t len = fitting(row->words);

	if (len > 0)
		printf("  %s%.*s%s", row->faulty ? colour_fault() : "", (int)len, row->words,
			row->faulty ? colour_plain() : "");
	row->words += len;
	row->words += strspn(row->words, " ");
}

static void show_row(struct row row)
{
	char number[12] = "";

	if (row.number != 0)
		snprintf(number, sizeof number, "%u", (unsigned)row.number);
	printf("%3s  %-*s %4zu  ", number, NAME, row.name, row.place);
	do {
		show_bytes(&row);
		show_words(&row);
		putchar('\n');
		if (row.len > 0 || *row.words != '\0')
			printf("%*s", 3 + 2 + NAME + 1 + 4 + 2, "");
	} while (row.len > 0 || *row.words != '\0');
}

static struct row row_of(const struct fields_sent *sent, const char *name, size_t place, size_t end,
	const char *words)
{
	struct row row = { 0, name, place, sent->at + place, end - place, words, false };

	return row;
}

/* Header and code. Where there is no frame, nothing is known of the bytes. */
static void show_frame(const struct fields_sent *sent, const qg_reply *asked)
{
	size_t header = sent->settings.header;
	const char *words = names_command(sent);

	if (asked->number == NO_FRAME) {
		show_row(row_of(sent, "no frame", 0, sent->len, ""));
		return;
	}
	if (header > 0)
		show_row(row_of(sent, "header", 0, header, "comes back as it stands"));
	struct row code = row_of(sent, "code", header, header + FIELDS_CODE,
		words != NULL ? words : "REFUSED");
	code.faulty = words == NULL;
	show_row(code);
}

/* The field that is refused, to its end or the command's. */
static size_t show_refused(const struct fields_sent *sent, const qg_reply *asked)
{
	const char *name = names_field(sent, asked->field);
	size_t end = fields_fault_end(sent, asked);
	struct row row = row_of(sent, name != NULL ? name : "", asked->place, end,
		end == asked->place ? "REFUSED: missing" : "REFUSED");

	row.number = asked->field;
	row.faulty = true;
	show_row(row);
	return end;
}

static void show_field(const struct fields_sent *sent, const struct fields_one *field)
{
	char words[NAMES_ROOM];
	struct row row = row_of(sent, names_field(sent, field->number), field->place,
		field->place + field->len, words);

	names_meaning(sent, field, words);
	row.number = field->number;
	show_row(row);
}

/* A field that is not there: it is optional, where the command is in order. */
static void show_absent(const struct fields_sent *sent, uint32_t number)
{
	printf("%3u  %-*s    -  absent\n", (unsigned)number, NAME, names_field(sent, number));
}

/* The fields before the fault, or all where no field by itself is at fault.
 * Answers where they end. */
static size_t show_fields(const struct fields_sent *sent, const qg_reply *asked)
{
	bool own = asked->field != 0 && fields_is_placed(sent, asked) && !fields_disagree(sent, asked);
	struct fields fields;

	fields_walk(sent, &fields);
	for (uint32_t i = 1; i <= names_count(sent); i++) {
		const struct fields_one *field = fields_find(&fields, i);

		if (own && i == asked->field)
			return show_refused(sent, asked);
		if (field != NULL)
			show_field(sent, field);
		else
			show_absent(sent, i);
	}
	return fields.end;
}

/* What stands behind the fields: the box did not read it, or it is left over. */
static void show_rest(const struct fields_sent *sent, const qg_reply *asked, size_t end)
{
	bool unread = asked->number == UNKNOWN_CODE || asked->field != 0;
	struct row row = row_of(sent, unread ? "not read" : "left over", end, sent->len,
		unread ? "" : "REFUSED");

	row.faulty = !unread;
	show_row(row);
}

void explain_fields(const struct fields_sent *sent, const qg_reply *asked)
{
	printf(" no  %-*s   at  %-*s  %s\n", NAME, "field", CHARACTERS, "characters", "meaning");
	show_frame(sent, asked);
	if (asked->number == NO_FRAME)
		return;
	size_t end = show_fields(sent, asked);
	if (end < sent->len)
		show_rest(sent, asked, end);
}
