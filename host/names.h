/*
 * The words for a command's fields: what a field is called, what the paper wants
 * there, and what its characters mean. Words alone: whether a field is in order
 * the box says.
 */
#ifndef HOST_NAMES_H
#define HOST_NAMES_H

#include "fields.h"

/* Room for what a field's characters mean. */
#define NAMES_ROOM 256

/* The command code in words, or NULL where it is not one of the three. */
const char *names_command(const struct fields_sent *sent);

/* Whether the command's 00 is a verdict on the offset that it presents, and not
 * an offset that it makes. */
bool names_is_verdict(const struct fields_sent *sent);

/* How many fields the command's table counts: 0 where the code has none. */
uint32_t names_count(const struct fields_sent *sent);

/* The field's name, or NULL where the command's table has no such field. */
const char *names_field(const struct fields_sent *sent, uint32_t number);

/* What the characters of a field that is in order mean. */
void names_meaning(const struct fields_sent *sent, const struct fields_one *field,
	char words[NAMES_ROOM]);

/* Both print lines that stand so far from the left: what a refusal's place and
 * field are, and what is wanted there. Where no field by itself is at fault the
 * second prints nothing. */
void names_show_place(const struct fields_sent *sent, const qg_reply *refusal, int indent);
void names_show_wanted(const struct fields_sent *sent, const qg_reply *refusal, int indent);

#endif
