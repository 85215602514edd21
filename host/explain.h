/*
 * labhost explain: tells of one command, field by field, what the box makes of
 * it. Every answer is asked of the archive and none is reckoned here: where the
 * fields begin, which one is refused, the PIN, the natural PIN, the differences,
 * the offset, the verdict and the response.
 *
 *   labhost explain [OPTION]... [COMMAND]
 *   labhost explain [OPTION]... --file FILE
 *
 * The command is an argument, or stands in a file, or comes from standard input
 * where neither is given. It is the command's text by itself, in one line, as
 * text.h has it; or lines of a class script, as script.h has them: those of one
 * exchange, with a `command` line and what else they say of it. What a lesson
 * says before that exchange may be left out, but where one of the key box's
 * blocks or one of the lab keys is said the other must be too. A command's text
 * that begins with # or with a word of a script, and so reads as such a line,
 * stands behind `command `.
 *
 *   --header N            the settings; those that are not given are the usual
 *   --restricted yes|no   ones, or what the script's lines say
 *   --variable yes|no
 *   --block HEX           what the key box answers: the PIN block deciphered,
 *   --enciphered HEX      the validation block enciphered,
 *   --parity PIN PVK      good or bad, for either key; good where not given
 *   --pinkey HEX          a class without a key box: the lab keys, which stand in
 *   --pvk HEX             the place of the three before
 *   --                    ends the options, for a command that begins with --
 *
 * An option is given once. With --block and --enciphered, with --pinkey and
 * --pvk, or such lines of a script, it goes on behind the fields: with the block,
 * the PIN, the offset and the response. The row of the block without the account
 * is had by writing the PIN again, so a block that is refused, which has no PIN,
 * shows no such row. A script's `room` line is not heeded: each call is lent as
 * much as it needs. Nor is a `seal` line.
 *
 * No line has more than 100 columns; a blank at either end of a line of the
 * response is shown as \x20. Colours are for terminals alone. Status 0: the
 * command is explained, whether the box takes it or not; 1: it could not be
 * printed whole; 2: the words were malformed, and one line on stderr says what is
 * wrong.
 */
#ifndef HOST_EXPLAIN_H
#define HOST_EXPLAIN_H

#include "names.h"
#include "script.h"

/* Explains what stands behind the word explain. False: the words were malformed,
 * and that is told. */
bool explain(char **words, int len);

/* Reads the words into a script's exchange. False: something is wrong with them,
 * and that is told. */
bool explain_read(struct script *script, char **words, int len);

/* Prints the fields. */
void explain_fields(const struct fields_sent *sent, const qg_reply *asked);

/* Prints what the box makes of a block, for a command whose fields are in
 * order. */
void explain_pin(const struct script_exchange *e, const struct fields_sent *sent);

#endif
