/*
 * DES, triple DES and parity by OpenSSL, for tests and measures: nothing of it is
 * in the archive. It is asked with its plain DES functions, which version 3 calls
 * old: they take a key of any parity, and are there in every version.
 */
#ifndef HOST_OPENSSL_DES_H
#define HOST_OPENSSL_DES_H

#define OPENSSL_SUPPRESS_DEPRECATED
#include <openssl/des.h>

#include <stdbool.h>
#include <stddef.h>
#include <stdint.h>

/* The schedules of a key, one for each of its parts: a DES key has one part, a
 * lab key two or three. */
struct openssl_key {
	DES_key_schedule schedule[3];
	size_t parts;
};

/* Makes the schedules of a key of 8, 16 or 24 bytes. */
void openssl_make_key(struct openssl_key *made, const uint8_t *key, size_t len);

/* Enciphers or deciphers a block, by the direction DES_ENCRYPT or DES_DECRYPT:
 * with DES under a key of one part, else with triple DES. */
void openssl_cipher(struct openssl_key *key, const uint8_t *block, int direction, uint8_t *out);

/* Whether the parity of every part of a key is odd. */
bool openssl_is_odd(const uint8_t *key, size_t len);

#endif
