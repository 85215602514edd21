/*
 * What the characters of each kind of field mean, in words. All of them are
 * handed a field that the box takes, and go by its form alone.
 */
#ifndef HOST_NAME_WORDS_H
#define HOST_NAME_WORDS_H

#include "names.h"

/* The characters of a field, and the settings that they are read by. */
struct names_of {
	const qg_settings *settings;
	const uint8_t *at;
	size_t len;
};

void mean_key_type(const struct names_of *of, char words[NAMES_ROOM]);
void mean_key(const struct names_of *of, char words[NAMES_ROOM]);
void mean_maximum(const struct names_of *of, char words[NAMES_ROOM]);
void mean_pin_block(const struct names_of *of, char words[NAMES_ROOM]);
void mean_format(const struct names_of *of, char words[NAMES_ROOM]);
void mean_check(const struct names_of *of, char words[NAMES_ROOM]);
void mean_account(const struct names_of *of, char words[NAMES_ROOM]);
void mean_table(const struct names_of *of, char words[NAMES_ROOM]);
void mean_validation(const struct names_of *of, char words[NAMES_ROOM]);
void mean_weak(const struct names_of *of, char words[NAMES_ROOM]);
void mean_offset(const struct names_of *of, char words[NAMES_ROOM]);
void mean_lmk(const struct names_of *of, char words[NAMES_ROOM]);
void mean_trailer(const struct names_of *of, char words[NAMES_ROOM]);

#endif
