/*
 * What a class without a key box has done, by three: our calls, the reference's,
 * and OpenSSL's DES. Keys are handed over as bytes each time, so that making
 * their schedules is part of it.
 */
#ifndef BENCH_LAB_CORES_H
#define BENCH_LAB_CORES_H

#include "quillgimlet_lab.h"

#define BLOCK 8
#define ROOM 65u

enum lab_core { LAB_OURS, LAB_REFERENCE, LAB_OPENSSL, LAB_CORES };

/* A lab key. */
struct lab_key {
	uint8_t at[24];
	size_t len;
};

/* Enciphers a block. */
void lab_encipher(enum lab_core core, const struct lab_key *key, const uint8_t *block, uint8_t *out);

/* Answers a whole command. OpenSSL's is the way of a server that has its DES for a
 * key box: qg_ask, qg_pin_block, the cipher and the parities, qg_answer. */
qg_reply lab_answer(enum lab_core core, const uint8_t *command, size_t command_len,
	const struct lab_key *pin_key, const struct lab_key *pvk, uint8_t *out);

#endif
