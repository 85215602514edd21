#include "player.h"

#include <stdio.h>
#include <string.h>

#include "lab_keys.h"
#include "meanings.h"
#include "names.h"
#include "quillgimlet_lab.h"
#include "text.h"
#include "underline.h"

/* What the lent output holds before a call. */
#define UNTOUCHED 0xA5

/* Bytes behind the lent output, where a call has no business. */
#define MARGIN 16

/* How far the lines of an exchange stand from the left, and what is shown in them
 * behind its name. */
#define LEFT 2
#define INDENT 14

#define SENT(e) (e)->command, (e)->command_len

/* What a call did. */
struct outcome {
	qg_reply reply;
	uint8_t out[SCRIPT_ROOM + MARGIN];
};

static void ask(const struct script_exchange *e, struct outcome *outcome)
{
	memset(outcome->out, UNTOUCHED, sizeof outcome->out);
	outcome->reply = qg_ask(e->settings, SENT(e), outcome->out, e->room);
}

static void answer(const struct script_exchange *e, struct outcome *outcome)
{
	memset(outcome->out, UNTOUCHED, sizeof outcome->out);
	if (script_is_lab(e)) {
		outcome->reply = qg_lab_answer(e->settings, SENT(e), e->pin_key.at, e->pin_key.len,
			e->pvk.at, e->pvk.len, outcome->out, e->room);
		return;
	}
	outcome->reply = qg_answer(e->settings, e->pin_key_parity_good,
		e->pvk_parity_good, SENT(e), e->block.at, e->block.len,
		e->enciphered.at, e->enciphered.len, outcome->out, e->room);
}

/* How many bytes can be shown: a call that counts more than it was lent is
 * not believed. */
static size_t shown(const struct outcome *outcome)
{
	return outcome->reply.written <= SCRIPT_ROOM ? outcome->reply.written : SCRIPT_ROOM;
}

static bool is_placed(const qg_reply *reply)
{
	return reply->place != 0 || reply->field != 0;
}

/* Shows where a refusal points, and the command with its field underlined, but
 * not twice where the other call's has shown the same. */
static void show_place(const struct script_exchange *e, const qg_reply *reply,
	const qg_reply *before)
{
	struct fields_sent sent = { e->settings, SENT(e), script_is_lab(e) };

	if (!fields_is_placed(&sent, reply) ||
		(before != NULL && before->place == reply->place && before->field == reply->field))
		return;
	names_show_place(&sent, reply, INDENT);
	underline_show(&sent, reply, INDENT);
}

static void show_outcome(const char *name, const struct outcome *outcome,
	void (*show)(FILE *stream, const uint8_t *bytes, size_t len))
{
	printf("  %-11s %02u, %s\n", name, (unsigned)outcome->reply.number,
		meaning_in_words(outcome->reply.number));
	if (outcome->reply.written == 0)
		return;
	printf("  %-11s ", "");
	show(stdout, outcome->out, shown(outcome));
	putchar('\n');
}

static const char *yes_or_no(uint8_t flag)
{
	return flag != 0 ? "yes" : "no";
}

static const char *good_or_bad(uint8_t parity)
{
	return parity != 0 ? "good" : "bad";
}

void player_show_settings(const struct script_exchange *e)
{
	printf("header %zu, restricted %s, variable %s", e->settings.header,
		yes_or_no(e->settings.restricted), yes_or_no(e->settings.variable));
}

static void show_handed(const struct script_exchange *e)
{
	printf("  %-11s ", "settings");
	player_show_settings(e);
	printf("; room %zu\n", e->room);
	printf("  %-11s ", "command");
	text_show(stdout, SENT(e));
	putchar('\n');
}

static void show_slice(const char *name, const struct script_slice *slice, int indent)
{
	printf("%*s%-11s %s", indent, "", name, slice->len == 0 ? "none" : "");
	text_show_hex(stdout, slice->at, slice->len);
	putchar('\n');
}

void player_show_key_box(const struct script_exchange *e, int indent)
{
	if (script_is_lab(e))
		lab_keys_show(e, indent);
	show_slice("block", &e->block, indent);
	show_slice("enciphered", &e->enciphered, indent);
	if (!script_is_lab(e))
		printf("%*s%-11s %s %s\n", indent, "", "parity", good_or_bad(e->pin_key_parity_good),
			good_or_bad(e->pvk_parity_good));
}

/* Shows the key box's answers, or those of one that had the lab keys. */
static void show_key_box(const struct script_exchange *e)
{
	struct script_exchange made = *e;

	if (script_is_lab(e))
		lab_keys_make(&made);
	player_show_key_box(&made, LEFT);
}

static void show_byte(uint8_t byte)
{
	printf("%02X hex", byte);
	if (byte > ' ' && byte <= '~')
		printf(" (%c)", byte);
}

/* Whether the number is the expected one. */
static bool hold_number(const char *name, uint32_t got, uint32_t expected)
{
	if (got == expected)
		return true;
	printf("  DIFFERS     %s: the number is %02u, %s; expected %02u, %s\n", name,
		(unsigned)got, meaning_in_words(got), (unsigned)expected,
		meaning_in_words(expected));
	return false;
}

/* Whether place and field are the expected ones, where any are expected. */
static bool hold_place(const char *name, const qg_reply *got, const struct script_expected *expected)
{
	if (!expected->placed || (got->place == expected->place && got->field == expected->field))
		return true;
	printf("  DIFFERS     %s: the place is %u and the field %u; expected %u and %u\n", name,
		(unsigned)got->place, (unsigned)got->field,
		(unsigned)expected->place, (unsigned)expected->field);
	return false;
}

static bool hold_length(const char *name, uint32_t got, size_t expected)
{
	if (got == expected)
		return true;
	printf("  DIFFERS     %s: %u bytes are written, expected %zu\n", name,
		(unsigned)got, expected);
	return false;
}

/* Whether the output is the expected bytes and behind them untouched. The first
 * byte that is not is told. */
static bool hold_bytes(const char *name, const struct outcome *outcome,
	const struct script_expected *expected)
{
	for (size_t i = 0; i < sizeof outcome->out; i++) {
		uint8_t want = i < expected->len ? expected->bytes[i] : UNTOUCHED;

		if (outcome->out[i] == want)
			continue;
		printf("  DIFFERS     %s: byte %zu is ", name, i);
		show_byte(outcome->out[i]);
		printf(", expected ");
		if (i < expected->len)
			show_byte(want);
		else
			printf("none");
		printf("; the first byte is byte 0\n");
		return false;
	}
	return true;
}

static bool hold(const char *name, const struct outcome *outcome,
	const struct script_expected *expected)
{
	bool number = hold_number(name, outcome->reply.number, expected->number);
	bool place = hold_place(name, &outcome->reply, expected);
	bool length = hold_length(name, outcome->reply.written, expected->len);
	bool bytes = hold_bytes(name, outcome, expected);

	return number && place && length && bytes;
}

/* A class without a key box need not say what one would be asked. */
static bool hold_asked(const struct outcome *asked, const struct script_expected *expected)
{
	return !expected->given || hold("asks", asked, expected);
}

/* Writes a place in the form of the script's lines. */
static void write_place(uint32_t place, uint32_t field)
{
	printf(SCRIPT_AT " %u " SCRIPT_FIELD " %u", (unsigned)place, (unsigned)field);
}

static void show_expected(const char *name, const struct script_expected *expected,
	void (*show)(FILE *stream, const uint8_t *bytes, size_t len))
{
	printf("  expected    %s: %02u", name, (unsigned)expected->number);
	if (expected->placed) {
		putchar(' ');
		write_place(expected->place, expected->field);
	}
	if (expected->len > 0)
		printf(", ");
	show(stdout, expected->bytes, expected->len);
	putchar('\n');
}

bool player_play(const struct script_exchange *e)
{
	struct outcome asked, answered;

	ask(e, &asked);
	answer(e, &answered);
	show_handed(e);
	show_outcome("asks", &asked, text_show_hex);
	show_place(e, &asked.reply, NULL);
	show_key_box(e);
	show_outcome("answers", &answered, text_show);
	show_place(e, &answered.reply, &asked.reply);
	bool asked_well = hold_asked(&asked, &e->asks);
	if (!asked_well)
		show_expected("asks", &e->asks, text_show_hex);
	bool answered_well = hold("answers", &answered, &e->answers);
	if (!answered_well)
		show_expected("answers", &e->answers, text_show);
	printf("  %s\n", asked_well && answered_well ? "passed" : "FAILED");
	return asked_well && answered_well;
}

void player_write_asked(const struct script_exchange *e)
{
	struct outcome asked;

	ask(e, &asked);
	if (asked.reply.number == 0)
		text_show_hex(stdout, asked.out, shown(&asked));
	else
		printf("%02u", (unsigned)asked.reply.number);
	if (is_placed(&asked.reply)) {
		putchar(' ');
		write_place(asked.reply.place, asked.reply.field);
	}
}

/* Whether a response begins with the very word that says something else in an
 * answers line: a header is the host's. */
static bool begins_with(const struct outcome *answered, const char *word)
{
	size_t len = strlen(word);

	return shown(answered) >= len && memcmp(answered->out, word, len) == 0;
}

/* The first letter of such a response is written in hex. */
static void write_response(const struct outcome *answered)
{
	size_t hidden = begins_with(answered, SCRIPT_NOTHING) || begins_with(answered, SCRIPT_AT " ");

	if (hidden > 0)
		printf("\\x%02X", answered->out[0]);
	text_show(stdout, answered->out + hidden, shown(answered) - hidden);
}

void player_write_answered(const struct script_exchange *e)
{
	struct outcome answered;

	answer(e, &answered);
	if (is_placed(&answered.reply)) {
		write_place(answered.reply.place, answered.reply.field);
		putchar(' ');
	}
	if (answered.reply.written > 0)
		write_response(&answered);
	else
		printf(SCRIPT_NOTHING "%02u", (unsigned)answered.reply.number);
}
