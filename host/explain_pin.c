#include "explain.h"

#include <stdio.h>
#include <string.h>

#define BLOCK 8
#define NIBBLES 16
#define DIGITS 12

/* The shortest PIN, for blocks that show where things stand. */
#define SHORTEST 4

/* The fields, as both tables number them. Only DA and EA have the last. */
#define FORMAT 5
#define CHECK 6
#define ACCOUNT 7
#define TABLE 8
#define OFFSET 10

static const uint8_t no_account[DIGITS + 1] = "000000000000";
static const uint8_t other_account[DIGITS + 1] = "999999999999";

/* What the calls below the command level are handed, and what they made. */
struct view {
	const struct script_exchange *e;
	uint32_t format;
	uint32_t check;
	const uint8_t *account;
	const uint8_t *table;
	const uint8_t *presented;  /* the offset of a DA or an EA, or NULL */
	uint8_t pin[DIGITS];
	size_t pin_len;
	uint8_t natural[DIGITS];
};

/* Begins a row: its name, and columns that stay empty, three for a value. */
static void begin_row(const char *name, size_t before)
{
	printf("  %-14s%*s", name, (int)(before * 3), "");
}

static void show_row(const char *name, size_t before, const char *values, size_t len)
{
	begin_row(name, before);
	for (size_t i = 0; i < len; i++)
		printf("%3c", values[i]);
}

static void show_note(const char *words)
{
	printf("     %s\n", words);
}

/* A digit or a nibble as its character. */
static char character(int value)
{
	return "0123456789ABCDEF"[value & 15];
}

static void nibbles_of(const uint8_t block[BLOCK], char nibbles[NIBBLES])
{
	for (size_t i = 0; i < BLOCK; i++) {
		nibbles[2 * i] = character(block[i] >> 4);
		nibbles[2 * i + 1] = character(block[i]);
	}
}

/* The nibbles of a block that the box writes, with a fill of equal nibbles. */
static void written(uint32_t format, const uint8_t *pin, size_t pin_len, const uint8_t *account,
	int fill, char nibbles[NIBBLES])
{
	uint8_t fills[BLOCK], block[BLOCK] = { 0 };

	memset(fills, fill * 16 + fill, BLOCK);
	qg_write_block(format, pin, pin_len, account, DIGITS, fills, BLOCK, block, BLOCK);
	nibbles_of(block, nibbles);
}

/* Whether the format puts the account into a block: then two accounts make two
 * blocks of one PIN. */
static bool takes_account(uint32_t format)
{
	static const uint8_t pin[SHORTEST] = { 0 };
	char one[NIBBLES], other[NIBBLES];

	written(format, pin, SHORTEST, no_account, 0, one);
	written(format, pin, SHORTEST, other_account, 0, other);
	return memcmp(one, other, NIBBLES) != 0;
}

/* Where the format puts a PIN's first digit: there two PINs begin to differ. */
static size_t digits_at(uint32_t format)
{
	static const uint8_t pin[SHORTEST] = { 0 }, another[SHORTEST] = { 9, 9, 9, 9 };
	char one[NIBBLES], other[NIBBLES];
	size_t i = 0;

	written(format, pin, SHORTEST, no_account, 0, one);
	written(format, another, SHORTEST, no_account, 0, other);
	while (i < NIBBLES && one[i] == other[i])
		i++;
	return i;
}

/* What is left of the block without the account. The box writes the PIN again
 * with each fill, under the account and under one of zeros: where the first
 * gives the block's nibble, the second gives the nibble that is left. */
static void without_account(const struct view *view, char left[NIBBLES])
{
	char came[NIBBLES], with[NIBBLES], without[NIBBLES];

	nibbles_of(view->e->block.at, came);
	for (int fill = NIBBLES - 1; fill >= 0; fill--) {
		written(view->format, view->pin, view->pin_len, view->account, fill, with);
		written(view->format, view->pin, view->pin_len, no_account, fill, without);
		for (size_t i = 0; i < NIBBLES; i++)
			if (with[i] == came[i])
				left[i] = without[i];
	}
}

/* Which nibble is what: control, length, the PIN's digits, fill. */
static void show_parts(const struct view *view)
{
	size_t first = digits_at(view->format);
	char parts[NIBBLES];

	for (size_t i = 0; i < NIBBLES; i++)
		parts[i] = i >= first + view->pin_len ? '.' : 'P';
	if (first > 0)
		memcpy(parts, "CN", 2);
	show_row("of which", 0, parts, NIBBLES);
	show_note(first > 0 ? "C control N length P PIN . fill" : "P PIN . fill");
}

/* "The account field is four zero nibbles and the 12 account digits." */
static void show_came(const struct view *view, bool account)
{
	char came[NIBBLES], field[NIBBLES] = "0000";

	nibbles_of(view->e->block.at, came);
	memcpy(field + NIBBLES - DIGITS, view->account, DIGITS);
	show_row("what came", 0, came, NIBBLES);
	putchar('\n');
	if (account) {
		show_row("account field", 0, field, NIBBLES);
		putchar('\n');
	}
}

/* Shows the block and reads the PIN. False: the box reads none. */
static bool show_block(struct view *view)
{
	bool account = takes_account(view->format);
	char left[NIBBLES] = "";
	qg_reply read = qg_read_block(view->format, view->e->block.at, BLOCK, view->account, DIGITS,
		view->pin, DIGITS);

	show_came(view, account);
	if (read.number != 0 || read.written > DIGITS)
		return false;
	view->pin_len = read.written;
	without_account(view, left);
	if (account) {
		show_row("XOR of the two", 0, left, NIBBLES);
		putchar('\n');
	}
	show_parts(view);
	return true;
}

static void show_digits(const char *name, const uint8_t *digits, size_t len)
{
	begin_row(name, 0);
	for (size_t i = 0; i < len; i++)
		printf("%3c", character(digits[i]));
}

static bool show_natural(struct view *view)
{
	qg_reply made = qg_natural_pin((uint32_t)view->pin_len, view->table, NIBBLES,
		view->e->enciphered.at, BLOCK, view->natural, DIGITS);

	show_digits("PIN", view->pin, view->pin_len);
	putchar('\n');
	if (made.number != 0)
		return false;
	show_digits("natural PIN", view->natural, view->pin_len);
	show_note("from the enciphered block, by the table");
	return true;
}

static void show_differences(const int8_t *differences, size_t before, size_t len)
{
	begin_row("difference", before);
	for (size_t i = 0; i < len; i++)
		printf("%3d", differences[i]);
	show_note("PIN less natural PIN, not reduced");
}

/* Shows the digits of an offset, as they stand before its fill. */
static void show_offset(const char *name, const uint8_t *offset, size_t before, const char *note)
{
	size_t len = 0;

	while (len < DIGITS && offset[len] != 'F')
		len++;
	show_row(name, before, (const char *)offset, len);
	show_note(note);
}

/* Differences and offset of the digits that are covered. Where the box refuses
 * them, its response says so. */
static void show_covered(const struct view *view)
{
	const struct script_exchange *e = view->e;
	int8_t differences[DIGITS];
	uint8_t offset[DIGITS];
	qg_reply apart = qg_differences(e->settings, view->check, view->pin, view->pin_len,
		view->natural, view->pin_len, differences, DIGITS);
	qg_reply made = qg_offset(e->settings, view->format, view->check, e->block.at, BLOCK,
		view->account, DIGITS, view->table, NIBBLES, e->enciphered.at, BLOCK, offset, DIGITS);

	if (apart.number != 0 || made.number != 0 || apart.written > view->pin_len)
		return;
	size_t before = view->pin_len - apart.written;
	show_differences(differences, before, apart.written);
	show_offset("offset", offset, before, "modulo ten");
	if (view->presented != NULL)
		show_offset("presented", view->presented, before, "field 10");
}

static const uint8_t *characters(const struct fields_sent *sent, const struct fields *fields,
	uint32_t number)
{
	const struct fields_one *field = fields_find(fields, number);

	return field != NULL ? sent->at + field->place : NULL;
}

/* The value of a field of two digits. */
static uint32_t value(const uint8_t *digits)
{
	return (uint32_t)(digits[0] - '0') * 10 + (uint32_t)(digits[1] - '0');
}

void explain_pin(const struct script_exchange *e, const struct fields_sent *sent)
{
	struct fields fields;

	fields_walk(sent, &fields);
	const uint8_t *format = characters(sent, &fields, FORMAT);
	const uint8_t *check = characters(sent, &fields, CHECK);
	struct view view = { .e = e, .account = characters(sent, &fields, ACCOUNT),
		.table = characters(sent, &fields, TABLE) };
	/* in a BK the tenth is the weak list */
	if (names_is_verdict(sent))
		view.presented = characters(sent, &fields, OFFSET);
	if (format == NULL || check == NULL || view.account == NULL || view.table == NULL)
		return;
	view.format = value(format);
	view.check = value(check);
	if (show_block(&view) && show_natural(&view))
		show_covered(&view);
	putchar('\n');
}
