/*
 * The paper's numbers in words.
 */
#ifndef HOST_MEANINGS_H
#define HOST_MEANINGS_H

#include <stdint.h>

/* What a number means, or NULL where the paper has no such number. */
const char *meaning_of(uint32_t number);

/* The same, and words for any other number. */
const char *meaning_in_words(uint32_t number);

#endif
