/*
 * Where the fields of a command begin and end. No width stands here: every
 * place is what the asking call tells.
 *
 * Byte 00 hex is in no field's alphabet and is no mark. So the asking call,
 * asked about the first n bytes of a command and one byte 00 behind them, tells
 * by its place and its field to which field the byte at n belongs.
 */
#ifndef HOST_FIELDS_H
#define HOST_FIELDS_H

#include <stdbool.h>

#include "quillgimlet.h"

/* The characters of a command's code. A response's code has as many. */
#define FIELDS_CODE 2

/* More than the twelve that a command has. */
#define FIELDS_MOST 16

/* A command with the settings that it is read by. */
struct fields_sent {
	qg_settings settings;
	const uint8_t *at;
	size_t len;
	bool has_lab_keys;  /* it is answered with lab keys and not with a key box's blocks */
};

struct fields_one {
	uint32_t number;
	size_t place;
	size_t len;
};

/* The fields that were found, from the left. A field that the box refuses is
 * the last and goes on to the command's end. */
struct fields {
	struct fields_one at[FIELDS_MOST];
	size_t len;
	size_t end;  /* where the last of them ends, or the command code */
};

void fields_walk(const struct fields_sent *sent, struct fields *fields);

/* The field of a number, or NULL where it was not found. */
const struct fields_one *fields_find(const struct fields *fields, uint32_t number);

/* Whether a reply tells a place, and one that is in the command or at its end: a
 * call that tells another is not believed. */
bool fields_is_placed(const struct fields_sent *sent, const qg_reply *reply);

/* Where that ends which a refusal with a place points at: the field, or in a weak
 * list the part of it that is wrong, since how long the field is meant to be is
 * not known then. It is the place itself where nothing stands there. */
size_t fields_fault_end(const struct fields_sent *sent, const qg_reply *refusal);

/* Whether the box takes the letter of a key field that it refuses: what is wrong
 * stands behind it then. A command that ends at a letter that is taken is short,
 * and not at fault for the letter. */
bool fields_letter_is_taken(const struct fields_sent *sent, const qg_reply *refusal);

/* Whether a refusal is about LMK ids that disagree. Each field by itself is in
 * order then: with a byte 00 behind the command the box tells another place. */
bool fields_disagree(const struct fields_sent *sent, const qg_reply *refusal);

#endif
