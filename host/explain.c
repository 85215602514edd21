#include "explain.h"

#include <stdio.h>

#include "lab_keys.h"
#include "meanings.h"
#include "player.h"
#include "quillgimlet_lab.h"
#include "text.h"
#include "underline.h"

#define BLOCK 8
#define RESPONSE 65

/* Numbers that the answering call has behind the fields, for the key box's
 * answers. */
#define NOT_8_BYTES 15
#define PIN_KEY_PARITY 10
#define PVK_PARITY 11

/* How far what is shown stands from the left, behind its name. */
#define INDENT 12

/* What a line's bytes may take. With the indent, and a blank at either end as
 * \x20, that is 100. */
#define COLUMNS 82

/* A script is long. */
static struct script script;

static void show_handed(const struct script_exchange *e)
{
	printf("%-11s ", "settings");
	player_show_settings(e);
	printf("\n%-11s %zu characters\n\n", "command", e->command_len);
}

static void show_number(const char *name, const qg_reply *reply)
{
	printf("%-11s %02u, %s\n", name, (unsigned)reply->number, meaning_in_words(reply->number));
}

/* What the answering call did. */
struct answered {
	qg_reply reply;
	uint8_t out[RESPONSE];
};

/* Asks for the answer. A refused command is refused whatever the key box would
 * say, so any blocks will do there. Lab keys answer by themselves. */
static void answer(const struct script_exchange *e, const struct fields_sent *sent, bool taken,
	struct answered *answered)
{
	static const struct script_slice any = { .len = BLOCK };
	const struct script_slice *block = taken ? &e->block : &any;
	const struct script_slice *enciphered = taken ? &e->enciphered : &any;

	if (script_is_lab(e)) {
		answered->reply = qg_lab_answer(e->settings, sent->at, sent->len, e->pin_key.at,
			e->pin_key.len, e->pvk.at, e->pvk.len, answered->out, sizeof answered->out);
		return;
	}
	answered->reply = qg_answer(e->settings, e->pin_key_parity_good, e->pvk_parity_good,
		sent->at, sent->len, block->at, block->len, enciphered->at, enciphered->len,
		answered->out, sizeof answered->out);
}

/* Whether the box looked into the block. Where the fields are in order, these
 * three are what it refuses before that. */
static bool block_is_read(uint32_t number)
{
	return number != NOT_8_BYTES && number != PIN_KEY_PARITY && number != PVK_PARITY;
}

/* Where a refusal points, what is wanted there, and the command with a line of ^
 * under it. */
static void show_place(const struct fields_sent *sent, const qg_reply *reply)
{
	if (!fields_is_placed(sent, reply))
		return;
	names_show_place(sent, reply, INDENT);
	names_show_wanted(sent, reply, INDENT);
	underline_show(sent, reply, INDENT);
}

static void show_asked(const struct fields_sent *sent, const qg_reply *asked, const uint8_t *block)
{
	if (asked->number == 0) {
		printf("asks        00, the key box is to encipher ");
		text_show_hex(stdout, block, BLOCK);
		putchar('\n');
		return;
	}
	show_number("refused", asked);
	show_place(sent, asked);
}

static void show_answer(const struct fields_sent *sent, const qg_reply *reply)
{
	show_number("answers", reply);
	if (reply->number == 0 && names_is_verdict(sent))
		printf("%*sthe PIN verifies\n", INDENT, "");
	show_place(sent, reply);
}

/* Shows the response, in as many lines as it needs: \xHH takes four columns. */
static void show_response(const struct answered *answered)
{
	size_t len = answered->reply.written <= RESPONSE ? answered->reply.written : 0, to;

	printf("%-11s %s", "response", len == 0 ? "none\n" : "");
	for (size_t from = 0; from < len; from = to) {
		to = from + text_fitting(answered->out + from, len - from, COLUMNS);
		printf("%*s", from == 0 ? 0 : INDENT, "");
		text_show(stdout, answered->out + from, to - from);
		putchar('\n');
	}
}

static void tell(const struct script_exchange *e)
{
	struct fields_sent sent = { e->settings, e->command, e->command_len, script_is_lab(e) };
	uint8_t block[BLOCK];
	struct answered answered;
	qg_reply asked = qg_ask(e->settings, sent.at, sent.len, block, sizeof block);
	bool taken = asked.number == 0;

	show_handed(e);
	explain_fields(&sent, &asked);
	putchar('\n');
	show_asked(&sent, &asked, block);
	if (taken && !e->block.given)
		return;
	answer(e, &sent, taken, &answered);
	if (taken) {
		player_show_key_box(e, 0);
		putchar('\n');
		if (block_is_read(answered.reply.number))
			explain_pin(e, &sent);
		show_answer(&sent, &answered.reply);
	}
	show_response(&answered);
}

bool explain(char **words, int len)
{
	if (!explain_read(&script, words, len))
		return false;
	if (script_is_lab(&script.now))
		lab_keys_make(&script.now);
	tell(&script.now);
	return true;
}
