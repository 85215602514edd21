/*
 * The ciphers of a class without a key box: NIST's known answers both ways, as
 * DES and as triple DES of one key again and again; what source 000 and others
 * print of triple DES and of check values; parities; and every length and every
 * room that the calls refuse.
 */
#include <stdbool.h>
#include <stdio.h>
#include <string.h>

#include "known_answers.h"
#include "quillgimlet_lab.h"
#include "vectors.h"

#define DES_KEY 8
#define TWO_PARTS 16
#define THREE_PARTS 24
#define CHECK_VALUE 3

/* Keys and blocks of every length up to this one are handed in. */
#define LONGEST 40

/* The bit of a byte that is its parity, and one that is not. */
#define PARITY_BIT 0x01
#define OTHER_BIT 0x10

struct cipher {
	const char *deed;
	bool triple;
	qg_reply (*call)(const uint8_t *key, size_t key_len, const uint8_t *block, size_t block_len,
		uint8_t *out, size_t out_len);
};

static const struct cipher des_encipher = { "DES, enciphered", false, qg_des_encipher };
static const struct cipher des_decipher = { "DES, deciphered", false, qg_des_decipher };
static const struct cipher tdes_encipher = { "triple DES, enciphered", true, qg_tdes_encipher };
static const struct cipher tdes_decipher = { "triple DES, deciphered", true, qg_tdes_decipher };

/* What a cipher is handed. */
struct handed {
	const char *source;
	const uint8_t *key;
	size_t key_len;
	const uint8_t *block;
	size_t block_len;
	size_t room;
};

/* Makes the call with copies, and holds all that it was lent. */
static void play(const struct cipher *cipher, const struct handed *h, uint32_t number,
	const uint8_t *made)
{
	uint8_t key[LONGEST], block[LONGEST], out[LENT];

	memcpy(key, h->key, h->key_len);
	memcpy(block, h->block, h->block_len);
	untouched(out);
	qg_reply reply = cipher->call(key, h->key_len, block, h->block_len, out, h->room);
	hold(cipher->deed, h->source, reply, out, number, made, number == 0 ? BLOCK : 0);
	hold_kept(cipher->deed, h->source, key, h->key, h->key_len);
	hold_kept(cipher->deed, h->source, block, h->block, h->block_len);
}

/* A block and what it is enciphered, both ways. */
static void play_under(const char *source, bool triple, const uint8_t *key, size_t key_len,
	const uint8_t *block, const uint8_t *enciphered)
{
	struct handed clear = { source, key, key_len, block, BLOCK, LENT };
	struct handed sealed = { source, key, key_len, enciphered, BLOCK, LENT };

	play(triple ? &tdes_encipher : &des_encipher, &clear, 0, enciphered);
	play(triple ? &tdes_decipher : &des_decipher, &sealed, 0, block);
}

/* The same, also under the key whose parity bits are all the other way round. */
static void play_both_ways(const char *source, bool triple, const uint8_t *key, size_t key_len,
	const uint8_t *block, const uint8_t *enciphered)
{
	uint8_t other[LONGEST];

	for (size_t i = 0; i < key_len; i++)
		other[i] = key[i] ^ PARITY_BIT;
	play_under(source, triple, key, key_len, block, enciphered);
	play_under(source, triple, other, key_len, block, enciphered);
}

/* A known answer of DES. Triple DES under one key again and again is DES under
 * it: what the first step does the second undoes. */
static void play_known(const struct known_answer *known)
{
	uint8_t key[THREE_PARTS], block[BLOCK], enciphered[BLOCK];

	for (size_t part = 0; part < THREE_PARTS; part += DES_KEY)
		known_bytes(known->key, key + part);
	known_bytes(known->block, block);
	known_bytes(known->enciphered, enciphered);
	play_both_ways(known->test, false, key, DES_KEY, block, enciphered);
	play_both_ways(known->test, true, key, TWO_PARTS, block, enciphered);
	play_both_ways(known->test, true, key, THREE_PARTS, block, enciphered);
}

/* A block that is printed with what it is enciphered under a lab key. */
struct example {
	const char *source;
	const char *key;
	const char *block;
	const char *enciphered;
};

#define SP_800_67_KEY "0123456789ABCDEF23456789ABCDEF01456789ABCDEF0123"

/* Source 000 enciphers the parts of a two-part key each under a variant of a
 * pair. Of SP 800-67 no copy was at hand: text and answers are written down from
 * memory, and OpenSSL gives these answers. The header's are OpenSSL's. */
static const struct example examples[] = {
	{ "source 000, 6.3.3, step 3: the left part of MK-SMI under 28-29/2",
		"401A1A1A1A1A1A1ABA1C1C1C1C1C1C1C", "F1F1F1F1F1F1F1F1", "5178C9D3D1052B15" },
	{ "source 000, 6.3.3, step 4: the right part of MK-SMI under 28-29/2",
		"401A1A1A1A1A1A1A461C1C1C1C1C1C1C", "C1C1C1C1C1C1C1C1", "BF6AEC458B4A4564" },
	{ "SP 800-67, B.1, first block", SP_800_67_KEY, "5468652071756663", "A826FD8CE53B855F" },
	{ "SP 800-67, B.1, second block", SP_800_67_KEY, "6B2062726F776E20", "CCE21C8112256FE6" },
	{ "SP 800-67, B.1, third block", SP_800_67_KEY, "666F78206A756D70", "68D5C05DD9B6B900" },
	{ "the lab header, two keys", "0123456789ABCDEFFEDCBA9876543210",
		"0123456789ABCDE7", "7F1D0A77826B8AFF" },
	{ "the lab header, three keys", "0123456789ABCDEFFEDCBA987654321089ABCDEF01234567",
		"0123456789ABCDE7", "DE0B7C06AE5E0ED5" },
	{ "the lab header, a sealed PIN", "0123456789ABCDEFFEDCBA9876543210",
		"0534167FFFEDCBA9", "A6C27D9717227471" },
};

/* A key of two parts is also one of three whose third is its first. */
static void play_example(const struct example *e)
{
	uint8_t key[THREE_PARTS], block[BLOCK], enciphered[BLOCK];
	size_t key_len = bytes_of(e->key, key);

	block_of(e->block, block);
	block_of(e->enciphered, enciphered);
	play_both_ways(e->source, true, key, key_len, block, enciphered);
	if (key_len == THREE_PARTS)
		return;
	memcpy(key + TWO_PARTS, key, DES_KEY);
	play_both_ways(e->source, true, key, THREE_PARTS, block, enciphered);
}

/* What the header prints of DES alone. */
static void play_des_example(void)
{
	uint8_t key[DES_KEY], block[BLOCK], enciphered[BLOCK];

	block_of("0123456789ABCDEF", key);
	block_of("0123456789ABCDE7", block);
	block_of("C95744256A5ED31D", enciphered);
	play_both_ways("the lab header, DES", false, key, DES_KEY, block, enciphered);
}

/* A weak key: enciphering undoes itself under it, so that one answer serves both
 * ways, for DES and for triple DES of any length. */
#define WEAK_BYTE 0x01
static const char weak_enciphered[] = "95F8A5E5DD31D900";

struct plain {
	uint8_t key[LONGEST];
	uint8_t block[LONGEST];
	uint8_t made[BLOCK];
};

static void make_plain(struct plain *plain)
{
	memset(plain->key, WEAK_BYTE, sizeof plain->key);
	memset(plain->block, 0, sizeof plain->block);
	plain->block[0] = 0x80;
	block_of(weak_enciphered, plain->made);
}

static bool is_key_of(const struct cipher *cipher, size_t len)
{
	return cipher->triple ? len == TWO_PARTS || len == THREE_PARTS : len == DES_KEY;
}

/* Every length of a key with every length of a block: 15, but for those that are
 * taken. */
static void play_lengths(const struct cipher *cipher, const struct plain *plain)
{
	struct handed h = { "the lab header, lengths", plain->key, 0, plain->block, 0, LENT };

	for (h.key_len = 0; h.key_len <= LONGEST; h.key_len++)
		for (h.block_len = 0; h.block_len <= LONGEST; h.block_len++) {
			bool taken = is_key_of(cipher, h.key_len) && h.block_len == BLOCK;

			play(cipher, &h, taken ? 0 : 15, plain->made);
		}
}

/* Every room, with lengths that are taken and with such as are not: 901 comes
 * before 15. */
static void play_rooms(const struct cipher *cipher, const struct plain *plain)
{
	static const size_t keys[] = { 0, DES_KEY, TWO_PARTS, THREE_PARTS }, blocks[] = { 0, BLOCK };
	struct handed h = { "the lab header, rooms", plain->key, 0, plain->block, 0, 0 };

	for (size_t i = 0; i < COUNT(keys) * COUNT(blocks); i++) {
		h.key_len = keys[i / COUNT(blocks)];
		h.block_len = blocks[i % COUNT(blocks)];
		bool taken = is_key_of(cipher, h.key_len) && h.block_len == BLOCK;
		for (h.room = 0; h.room <= 2 * BLOCK; h.room++)
			play(cipher, &h, h.room < BLOCK ? 901 : taken ? 0 : 15, plain->made);
	}
}

static void play_refusals(void)
{
	static const struct cipher *const all[] = {
		&des_encipher, &des_decipher, &tdes_encipher, &tdes_decipher,
	};
	struct plain plain;

	make_plain(&plain);
	for (size_t i = 0; i < COUNT(all); i++) {
		play_lengths(all[i], &plain);
		play_rooms(all[i], &plain);
	}
}

/* A key that is printed with its check value. */
struct check {
	const char *source;
	const char *key;
	const char *value;
};

/* Of its two test sets of variant LMKs source 000 prints check values too,
 * 3D3639 and E75262, but not of which bytes: these are left out. */
static const struct check checks[] = {
	{ "source 000, 6.4.1.1: the test LMK, which has three keys",
		"0123456789ABCDEF8080808080808080FEDCBA9876543210", "8E0EC0" },
	{ "the lab header, the PIN key", "0123456789ABCDEFFEDCBA9876543210", "08D7B4" },
	{ "the lab header, the PVK", "89ABCDEF0123456776543210FEDCBA98", "EB7A8D" },
};

static void play_check(const char *source, const uint8_t *key, size_t key_len, size_t room,
	uint32_t number, const uint8_t *value)
{
	uint8_t lent[LONGEST], out[LENT];

	memcpy(lent, key, key_len);
	untouched(out);
	qg_reply reply = qg_key_check(lent, key_len, out, room);
	hold("checked", source, reply, out, number, value, number == 0 ? CHECK_VALUE : 0);
	hold_kept("checked", source, lent, key, key_len);
}

/* Its parity bits do not enter a key's check value, and one that is none does: no
 * other key here has the printed one. */
static void play_printed_check(const struct check *c)
{
	uint8_t key[THREE_PARTS], value[CHECK_VALUE], other[LENT];
	size_t key_len = bytes_of(c->key, key);

	bytes_of(c->value, value);
	play_check(c->source, key, key_len, LENT, 0, value);
	for (size_t i = 0; i < key_len; i++) {
		key[i] ^= PARITY_BIT;
		play_check(c->source, key, key_len, LENT, 0, value);
		key[i] ^= OTHER_BIT;
		qg_reply reply = qg_key_check(key, key_len, other, LENT);
		qg_reply differs = { .number = memcmp(other, value, CHECK_VALUE) != 0 };
		hold_verdict("checked", c->source, (qg_reply){ .number = reply.number }, 0);
		hold_verdict("another key has another check value", c->source, differs, 1);
		key[i] ^= OTHER_BIT;
	}
}

static void play_checks(void)
{
	static const char source[] = "the lab header, check value: lengths and rooms";
	uint8_t key[LONGEST], value[CHECK_VALUE];

	for (size_t i = 0; i < COUNT(checks); i++)
		play_printed_check(&checks[i]);
	memset(key, WEAK_BYTE, sizeof key);
	bytes_of("8CA64D", value); /* OpenSSL's */
	for (size_t len = 0; len <= LONGEST; len++)
		for (size_t room = 0; room <= 2 * CHECK_VALUE; room++) {
			bool taken = len == TWO_PARTS || len == THREE_PARTS;

			play_check(source, key, len, room, room < CHECK_VALUE ? 901 : taken ? 0 : 15, value);
		}
}

static void play_parity(const char *source, const uint8_t *key, size_t key_len, uint8_t odd)
{
	uint8_t lent[LONGEST];

	memcpy(lent, key, key_len);
	qg_reply reply = { .number = qg_odd_parity(lent, key_len) };
	hold_verdict("parity judged", source, reply, odd);
	hold_kept("parity judged", source, lent, key, key_len);
}

/* Of a key of every length: odd; and even with any one bit of it changed, in the
 * last byte as in the first. */
static void play_parities(void)
{
	uint8_t key[LONGEST];

	for (size_t i = 0; i < sizeof key; i++)
		key[i] = i % 2 == 0 ? 0x7C : 0xFE;
	for (size_t len = 0; len <= LONGEST; len++) {
		play_parity("the lab header, odd parity", key, len, 1);
		for (size_t bit = 0; bit < 8 * len; bit++) {
			key[bit / 8] ^= (uint8_t)(1 << bit % 8);
			play_parity("the lab header, a bit changed", key, len, 0);
			key[bit / 8] ^= (uint8_t)(1 << bit % 8);
		}
	}
}

/* Each byte by itself. Of two that differ in their last bit the ones are odd in
 * one of them alone. */
static void play_every_byte(void)
{
	for (unsigned value = 0; value < 256; value++) {
		uint8_t byte = (uint8_t)value, odd = 0;

		for (unsigned bits = value; bits != 0; bits &= bits - 1)
			odd ^= 1;
		play_parity("the lab header, one byte", &byte, 1, odd);
	}
}

void cipher_vectors(void)
{
	for (size_t i = 0; i < KNOWN_ANSWERS; i++) {
		struct known_answer known = known_answer(i);

		play_known(&known);
	}
	for (size_t i = 0; i < COUNT(examples); i++)
		play_example(&examples[i]);
	play_des_example();
	play_refusals();
	play_checks();
	play_parities();
	play_every_byte();
}
