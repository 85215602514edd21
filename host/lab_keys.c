#include "lab_keys.h"

#include <stdio.h>
#include <string.h>

#include "meanings.h"
#include "quillgimlet_lab.h"
#include "text.h"

#define BLOCK 8
#define CHECK_VALUE 3

/* The room that qg_pin_block asks for. */
#define PIN_BLOCK_ROOM 16

#define LEFT 2

static void keep(struct script_slice *slice, qg_reply reply)
{
	slice->len = reply.number == 0 ? reply.written : 0;
	slice->given = true;
}

void lab_keys_make(struct script_exchange *e)
{
	uint8_t asked[BLOCK], sealed[PIN_BLOCK_ROOM];
	qg_reply ask = qg_ask(e->settings, e->command, e->command_len, asked, sizeof asked);
	qg_reply take = qg_pin_block(e->settings, e->command, e->command_len, sealed, sizeof sealed);

	keep(&e->block, qg_tdes_decipher(e->pin_key.at, e->pin_key.len, sealed, take.written,
		e->block.at, SCRIPT_SLICE));
	keep(&e->enciphered, qg_tdes_encipher(e->pvk.at, e->pvk.len, asked, ask.written,
		e->enciphered.at, SCRIPT_SLICE));
	e->pin_key_parity_good = qg_odd_parity(e->pin_key.at, e->pin_key.len);
	e->pvk_parity_good = qg_odd_parity(e->pvk.at, e->pvk.len);
}

static void show_key(const char *name, const struct script_slice *key, int indent)
{
	uint8_t check[CHECK_VALUE];
	qg_reply reply = qg_key_check(key->at, key->len, check, sizeof check);

	printf("%*s%-11s %s", indent, "", name, key->len == 0 ? "none" : "");
	text_show_hex(stdout, key->at, key->len);
	printf("\n%*s%-11s ", indent, "", "");
	if (reply.number == 0)
		printf("check value %02X%02X%02X, ", check[0], check[1], check[2]);
	else
		printf("%zu bytes, which no lab key has, ", key->len);
	printf("parity %s\n", qg_odd_parity(key->at, key->len) != 0 ? "good" : "bad");
}

void lab_keys_show(const struct script_exchange *e, int indent)
{
	show_key("pinkey", &e->pin_key, indent);
	show_key("pvk", &e->pvk, indent);
}

/* What sealing did: the clear block, and the block under the PIN key. */
struct sealed {
	uint8_t clear[BLOCK];
	uint8_t block[BLOCK];
	qg_reply written;
	qg_reply reply;  /* the first refusal, or that of the enciphering */
};

static void make_sealed(const struct script_exchange *e, struct sealed *sealed)
{
	const struct script_seal *seal = &e->seal;

	sealed->written = qg_write_block(seal->format, seal->pin, seal->pin_len, seal->account,
		seal->account_len, seal->fill, seal->fill_len, sealed->clear, BLOCK);
	sealed->reply = sealed->written;
	if (sealed->written.number == 0)
		sealed->reply = qg_tdes_encipher(e->pin_key.at, e->pin_key.len, sealed->clear, BLOCK,
			sealed->block, BLOCK);
}

static void show_block(const char *name, const uint8_t *block)
{
	printf("%*s%-11s ", LEFT, "", name);
	text_show_hex(stdout, block, BLOCK);
	putchar('\n');
}

static void show_seal(const struct script_seal *seal)
{
	printf("%*s%-11s %02u, PIN ", LEFT, "", "format", (unsigned)seal->format);
	for (size_t i = 0; i < seal->pin_len; i++)
		putchar('0' + seal->pin[i]);
	printf(", account ");
	text_show(stdout, seal->account, seal->account_len);
	printf(", fill ");
	text_show_hex(stdout, seal->fill, seal->fill_len);
	putchar('\n');
}

static void show_sealed(const struct script_exchange *e, const struct sealed *sealed)
{
	show_seal(&e->seal);
	if (sealed->written.number == 0)
		show_block("block", sealed->clear);
	show_key("pinkey", &e->pin_key, LEFT);
	if (sealed->reply.number == 0)
		show_block("sealed", sealed->block);
	else
		printf("%*s%-11s %02u, %s\n", LEFT, "", "sealed", (unsigned)sealed->reply.number,
			meaning_in_words(sealed->reply.number));
}

static bool is_expected(const struct sealed *sealed, const struct script_expected *expected)
{
	return sealed->reply.number == expected->number && sealed->reply.written == expected->len &&
		(expected->len == 0 || memcmp(sealed->block, expected->bytes, expected->len) == 0);
}

bool lab_keys_seal(const struct script_exchange *e)
{
	const struct script_expected *expected = &e->seal.sealed;
	struct sealed sealed;

	make_sealed(e, &sealed);
	show_sealed(e, &sealed);
	bool well = is_expected(&sealed, expected);
	if (!well) {
		printf("%*s%-11s sealed: expected %02u", LEFT, "", "DIFFERS", (unsigned)expected->number);
		printf(expected->len > 0 ? ", " : "");
		text_show_hex(stdout, expected->bytes, expected->len);
		putchar('\n');
	}
	printf("%*s%s\n", LEFT, "", well ? "passed" : "FAILED");
	return well;
}

void lab_keys_write_sealed(const struct script_exchange *e)
{
	struct sealed sealed;

	make_sealed(e, &sealed);
	if (sealed.reply.number == 0)
		text_show_hex(stdout, sealed.block, BLOCK);
	else
		printf("%02u", (unsigned)sealed.reply.number);
}
