#include "openssl_des.h"

#include <string.h>

#define BLOCK 8

void openssl_make_key(struct openssl_key *made, const uint8_t *key, size_t len)
{
	made->parts = len / BLOCK;
	for (size_t i = 0; i < made->parts; i++) {
		uint8_t part[BLOCK];

		memcpy(part, key + i * BLOCK, BLOCK);
		DES_set_key_unchecked(&part, &made->schedule[i]);
	}
}

/* DES is asked for as chained behind a block of zeros, which is the same of a
 * single block: DES_ecb_encrypt stands in one file with a function of texts, and a
 * static program takes in seven hundred files of the library for that. A key of
 * two parts has its first again as its third. */
void openssl_cipher(struct openssl_key *key, const uint8_t *block, int direction, uint8_t *out)
{
	uint8_t from[BLOCK], to[BLOCK], before[BLOCK] = { 0 };
	DES_key_schedule *schedule = key->schedule;

	memcpy(from, block, BLOCK);
	if (key->parts == 1)
		DES_ncbc_encrypt(from, to, BLOCK, &schedule[0], &before, direction);
	else
		DES_ecb3_encrypt(&from, &to, &schedule[0], &schedule[1],
			&schedule[key->parts == 3 ? 2 : 0], direction);
	memcpy(out, to, BLOCK);
}

bool openssl_is_odd(const uint8_t *key, size_t len)
{
	for (size_t i = 0; i < len; i += BLOCK) {
		uint8_t part[BLOCK];

		memcpy(part, key + i, BLOCK);
		if (DES_check_key_parity(&part) == 0)
			return false;
	}
	return true;
}
