/*
 * NIST's known-answer tests for DES, row by row. Which rules give their inputs
 * and where the answers come from is said in known_answers.c.
 */
#ifndef HOST_KNOWN_ANSWERS_H
#define HOST_KNOWN_ANSWERS_H

#include <stddef.h>
#include <stdint.h>

/* Variable plaintext, inverse permutation, variable key, permutation operation
 * and substitution table. */
#define KNOWN_ANSWERS (64 + 64 + 56 + 32 + 19)

#define KNOWN_BLOCK 8

/* A row: the name of its test, and the bytes of key, block and answer, the first
 * of each the highest. */
struct known_answer {
	const char *test;
	uint64_t key;
	uint64_t block;
	uint64_t enciphered;
};

/* The row of a number under KNOWN_ANSWERS. */
struct known_answer known_answer(size_t i);

void known_bytes(uint64_t value, uint8_t bytes[KNOWN_BLOCK]);

#endif
