/*
 * openssl: holds the ciphers to OpenSSL's DES. First NIST's known answers, whose
 * answers are OpenSSL's own; then one hundred thousand random keys and blocks at
 * each of the three key lengths, that is, DES and triple DES of two keys and of
 * three, both ways, with the check value and the parity of the key. Every second
 * key has odd parity, the others come as they are drawn. The last line is
 * 'openssl: N passed, M failed', counted in calls.
 */
#include <inttypes.h>
#include <stdbool.h>
#include <stdio.h>
#include <stdlib.h>
#include <string.h>

#include "known_answers.h"
#include "openssl_des.h"
#include "quillgimlet_lab.h"

#define BLOCK 8
#define LONGEST (3 * BLOCK)
#define CHECK_VALUE 3

#define DRAWS 100000
#define SEED 20260101

/* How many calls that differ are shown. */
#define SHOWN 5

static uint64_t passed, failed;

/* SplitMix64: any generator will do whose draws are the same everywhere. */
static uint64_t draw(void)
{
	static uint64_t state = SEED;
	uint64_t z = state += 0x9E3779B97F4A7C15;

	z = (z ^ z >> 30) * 0xBF58476D1CE4E5B9;
	z = (z ^ z >> 27) * 0x94D049BB133111EB;
	return z ^ z >> 31;
}

/* A key of one, two or three parts: its bytes, and what OpenSSL takes it as. */
struct key {
	uint8_t at[LONGEST];
	size_t len;
	struct openssl_key theirs;
};

static void draw_key(struct key *key, size_t len, bool odd)
{
	key->len = len;
	for (size_t i = 0; i < len; i += BLOCK) {
		uint8_t part[BLOCK];

		known_bytes(draw(), part);
		if (odd)
			DES_set_odd_parity(&part);
		memcpy(key->at + i, part, BLOCK);
	}
	openssl_make_key(&key->theirs, key->at, len);
}

static void show(const char *name, const uint8_t *bytes, size_t len)
{
	printf("  %-9s", name);
	for (size_t i = 0; i < len; i++)
		printf(" %02X", bytes[i]);
	putchar('\n');
}

/* Counts a call, and shows the first that went otherwise than OpenSSL's. */
static void score(const char *call, bool same, const struct key *key, const uint8_t *block,
	const uint8_t *ours, const uint8_t *theirs, size_t len)
{
	if (same) {
		passed++;
		return;
	}
	if (failed++ >= SHOWN)
		return;
	printf("%s:\n", call);
	show("key", key->at, key->len);
	show("block", block, BLOCK);
	show("ours", ours, len);
	show("OpenSSL's", theirs, len);
}

/* What the archive makes of it. */
static qg_reply make(const struct key *key, const uint8_t *block, int direction, uint8_t *made)
{
	bool single = key->len == BLOCK;

	if (direction == DES_ENCRYPT)
		return (single ? qg_des_encipher : qg_tdes_encipher)(key->at, key->len,
			block, BLOCK, made, BLOCK);
	return (single ? qg_des_decipher : qg_tdes_decipher)(key->at, key->len,
		block, BLOCK, made, BLOCK);
}

static void hold_cipher(struct key *key, const uint8_t *block, int direction)
{
	uint8_t ours[BLOCK] = { 0 }, theirs[BLOCK];
	qg_reply reply = make(key, block, direction, ours);

	openssl_cipher(&key->theirs, block, direction, theirs);
	score(direction == DES_ENCRYPT ? "enciphered" : "deciphered", reply.number == 0 &&
		reply.written == BLOCK && memcmp(ours, theirs, BLOCK) == 0, key, block, ours, theirs,
		BLOCK);
}

static void hold_check_value(struct key *key)
{
	static const uint8_t zeros[BLOCK];
	uint8_t ours[CHECK_VALUE] = { 0 }, theirs[BLOCK];
	qg_reply reply = qg_key_check(key->at, key->len, ours, CHECK_VALUE);

	openssl_cipher(&key->theirs, zeros, DES_ENCRYPT, theirs);
	score("check value", reply.number == 0 && reply.written == CHECK_VALUE &&
		memcmp(ours, theirs, CHECK_VALUE) == 0, key, zeros, ours, theirs, CHECK_VALUE);
}

static void hold_parity(const struct key *key)
{
	static const uint8_t none[BLOCK];
	uint8_t ours = qg_odd_parity(key->at, key->len), theirs = openssl_is_odd(key->at, key->len);

	score("parity", ours == theirs, key, none, &ours, &theirs, 1);
}

static void hold_draw(bool odd)
{
	for (size_t len = BLOCK; len <= LONGEST; len += BLOCK) {
		struct key key;
		uint8_t block[BLOCK];

		draw_key(&key, len, odd);
		known_bytes(draw(), block);
		hold_cipher(&key, block, DES_ENCRYPT);
		hold_cipher(&key, block, DES_DECRYPT);
		hold_parity(&key);
		if (len > BLOCK)
			hold_check_value(&key);
	}
}

/* That the answers in known_answers.c are OpenSSL's. */
static void hold_known(const struct known_answer *known)
{
	struct key key = { .len = BLOCK };
	uint8_t block[BLOCK], enciphered[BLOCK], theirs[BLOCK];

	known_bytes(known->key, key.at);
	known_bytes(known->block, block);
	known_bytes(known->enciphered, enciphered);
	openssl_make_key(&key.theirs, key.at, key.len);
	openssl_cipher(&key.theirs, block, DES_ENCRYPT, theirs);
	score(known->test, memcmp(enciphered, theirs, BLOCK) == 0, &key, block, enciphered, theirs,
		BLOCK);
}

int main(void)
{
	for (size_t i = 0; i < KNOWN_ANSWERS; i++) {
		struct known_answer known = known_answer(i);

		hold_known(&known);
	}
	for (unsigned i = 0; i < DRAWS; i++)
		hold_draw(i % 2 == 0);
	printf("openssl: %" PRIu64 " passed, %" PRIu64 " failed\n", passed, failed);
	return failed == 0 && passed > 0 ? 0 : 1;
}
