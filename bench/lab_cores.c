#include "lab_cores.h"

#include "openssl_des.h"

/* The room that qg_pin_block asks for. */
#define PIN_BLOCK_ROOM 16

/* The reference's calls, of the library that face/ makes. */
qg_reply reference_tdes_encipher(const uint8_t *key, size_t key_len,
	const uint8_t *block, size_t block_len,
	uint8_t *out, size_t out_len);
qg_reply reference_lab_answer(qg_settings settings,
	const uint8_t *command, size_t command_len,
	const uint8_t *pin_key, size_t pin_key_len,
	const uint8_t *pvk, size_t pvk_len,
	uint8_t *out, size_t out_len);

/* A block by OpenSSL, its schedules of the key made for it. */
static void openssl_tdes(const struct lab_key *key, const uint8_t *block, int direction, uint8_t *out)
{
	struct openssl_key made;

	openssl_make_key(&made, key->at, key->len);
	openssl_cipher(&made, block, direction, out);
}

static qg_reply openssl_answer(const uint8_t *command, size_t command_len,
	const struct lab_key *pin_key, const struct lab_key *pvk, uint8_t *out)
{
	qg_settings settings = qg_usual();
	uint8_t asked[BLOCK], sealed[PIN_BLOCK_ROOM], pin_block[BLOCK] = { 0 }, enciphered[BLOCK] = { 0 };

	if (qg_ask(settings, command, command_len, asked, BLOCK).number == 0 &&
		qg_pin_block(settings, command, command_len, sealed, PIN_BLOCK_ROOM).number == 0) {
		openssl_tdes(pin_key, sealed, DES_DECRYPT, pin_block);
		openssl_tdes(pvk, asked, DES_ENCRYPT, enciphered);
	}
	return qg_answer(settings, openssl_is_odd(pin_key->at, pin_key->len),
		openssl_is_odd(pvk->at, pvk->len), command, command_len, pin_block, BLOCK,
		enciphered, BLOCK, out, ROOM);
}

void lab_encipher(enum lab_core core, const struct lab_key *key, const uint8_t *block, uint8_t *out)
{
	if (core == LAB_OPENSSL)
		openssl_tdes(key, block, DES_ENCRYPT, out);
	else
		(core == LAB_OURS ? qg_tdes_encipher : reference_tdes_encipher)(key->at, key->len,
			block, BLOCK, out, BLOCK);
}

qg_reply lab_answer(enum lab_core core, const uint8_t *command, size_t command_len,
	const struct lab_key *pin_key, const struct lab_key *pvk, uint8_t *out)
{
	if (core == LAB_OPENSSL)
		return openssl_answer(command, command_len, pin_key, pvk, out);
	return (core == LAB_OURS ? qg_lab_answer : reference_lab_answer)(qg_usual(), command,
		command_len, pin_key->at, pin_key->len, pvk->at, pvk->len, out, ROOM);
}
