/*
 * The reader of a class script: exchanges between a host and the box, with
 * what must come of them. Plain text, one thing a line. A line that begins
 * with # is a comment; comments and blank lines may stand anywhere.
 *
 *   name WORDS            names the exchange that follows
 *   usual                 the usual settings, those of qg_usual
 *   header N              settings: the header's length,
 *   restricted yes|no     restricted formats,
 *   variable yes|no       variable length offset
 *   room N                how many bytes of output each call is lent, 0 to
 *                         128; without this line 128
 *   command TEXT          what the host sends
 *   more TEXT             the command goes on
 *   block HEX             the key box's PIN block, deciphered
 *   enciphered HEX        the key box's validation block, enciphered
 *   parity PIN PVK        good or bad, for either key; at first good good
 *   pinkey HEX            a class without a key box: the lab key that PIN blocks
 *   pvk HEX               are under, and that of the validation data, each of
 *                         any length up to 40 bytes
 *   keybox                puts the lab keys away: the key box answers again, with
 *                         what was said of it last
 *   seal FORMAT PIN ACCOUNT FILL
 *                         a PIN to be sealed under the pinkey: written into a
 *                         block of the format and enciphered. The fill is 8
 *                         bytes in hex, and 00 throughout where it is left out
 *   sealed HEX            expected of that: the sealed block, or the number of a
 *   sealed N              refusal
 *   asks HEX              expected of the asking call: the block that it
 *   asks N                writes, or the number of its refusal
 *   asks N at P field F   the number with the place and the field that the
 *                         asking call tells beside it
 *   answers TEXT          expected of the answering call: the response, or
 *   answers nothing N     the number, 901 or 902, beside which it writes none.
 *                         A response that begins with `nothing ` itself is
 *                         written \x6Eothing
 *   answers at P field F TEXT
 *                         the response with the place and the field that the
 *                         answering call tells beside it. A response that
 *                         begins with `at ` itself is written \x61t
 *
 * Places count from 0, the header counted in; 0 and 0 say that the call tells
 * no place. Where a line does not say place and field they are not judged, so
 * that a script that was written without them plays as before. What is recorded
 * says them wherever they are not 0 and 0.
 *
 * How text and hex are written is said in text.h. An exchange has an `asks`
 * line and ends at its `answers` line. Everything but the name and these two
 * stays until it is changed, so that a lesson can change one thing at a time.
 * What the asking call is handed cannot change between `asks` and `answers`.
 * Both may be given as ? in a script that is to be recorded.
 *
 * While both lab keys are set, the answering call of an exchange is
 * qg_lab_answer and no key box is asked: an exchange needs no `asks` line then.
 * Where it has one it is held to it. One lab key without the other answers
 * nothing, but seals PINs where it is the pinkey. As soon as one is set, the lines
 * block, enciphered and parity have no place.
 *
 * A `seal` line is followed by its `sealed` line, which may be ? too: nothing but
 * comments and blank lines stands between them. The block goes into a command as
 * any other characters do: by a line that says them. So a script shows what stands
 * on the line to the host, and a block that was sealed under another key can be
 * sent. A script ends behind an exchange or behind a `sealed` line: one that has
 * PINs sealed and nothing else needs no exchange.
 */
#ifndef HOST_SCRIPT_H
#define HOST_SCRIPT_H

#include <stdbool.h>
#include <stdio.h>

#include "quillgimlet.h"

#define SCRIPT_LINE 8192
#define SCRIPT_NAME 128
#define SCRIPT_ROOM 128

/* What stands in an answers line before the number of a refusal without a
 * response. */
#define SCRIPT_NOTHING "nothing "

/* What stands before the place and before the field of a refusal. */
#define SCRIPT_AT "at"
#define SCRIPT_FIELD "field"

/* More than the 4,096 bytes that have a frame. */
#define SCRIPT_COMMAND 8192

/* More than the 8 bytes that a block must have, and the 24 of the longest lab
 * key. */
#define SCRIPT_SLICE 40

/* More than the PIN, the account or the fill of a block has. */
#define SCRIPT_WORD 32

struct script_slice {
	uint8_t at[SCRIPT_SLICE];
	size_t len;
	bool given;
};

/* What a call must answer: the number, the bytes that it writes, and where
 * `placed` says so the place and the field. */
struct script_expected {
	uint32_t number;
	uint32_t place;
	uint32_t field;
	bool placed;
	uint8_t bytes[SCRIPT_ROOM];
	size_t len;
	bool given;
};

/* A PIN that is to be sealed, and what is expected of that. */
struct script_seal {
	bool given;  /* its sealed line is to come */
	uint32_t format;
	uint8_t pin[SCRIPT_WORD];
	size_t pin_len;
	uint8_t account[SCRIPT_WORD];
	size_t account_len;
	uint8_t fill[SCRIPT_WORD];
	size_t fill_len;
	struct script_expected sealed;
};

struct script_exchange {
	char name[SCRIPT_NAME];
	qg_settings settings;
	size_t room;
	uint8_t command[SCRIPT_COMMAND];
	size_t command_len;
	bool command_given;
	struct script_slice block;
	struct script_slice enciphered;
	uint8_t pin_key_parity_good;
	uint8_t pvk_parity_good;
	struct script_slice pin_key;
	struct script_slice pvk;
	struct script_seal seal;
	struct script_expected asks;
	struct script_expected answers;
};

enum script_step {
	SCRIPT_OTHER,    /* a line that is none of the three below */
	SCRIPT_SEALED,   /* a PIN can be sealed */
	SCRIPT_ASKS,     /* the asking call can be made */
	SCRIPT_ANSWERS,  /* the exchange is whole */
	SCRIPT_END,
	SCRIPT_FAULT,    /* `fault` says what is wrong with this line */
};

struct script {
	FILE *stream;
	unsigned line;           /* counts from 1 */
	char text[SCRIPT_LINE];  /* the line, without its end */
	const char *rest;        /* what stands in it behind its first word */
	const char *fault;
	const char *word;        /* the word that the fault is about, or NULL */
	size_t word_len;
	bool may_be_open;  /* ? is taken as an expectation */
	bool alone;        /* one exchange by itself: the key box's blocks may be missing */
	bool in_command;   /* `more` may follow */
	bool begun;        /* something stands behind the last `answers`, */
	bool commanded;    /* and a command line among it */
	bool sealed;       /* the last line was a `sealed` line */
	unsigned exchanges;
	struct script_exchange now;
};

/* Whether the exchange has both lab keys, so that no key box is asked. */
bool script_is_lab(const struct script_exchange *e);

/* Readies a script of which nothing is read yet. */
void script_begin(struct script *script, bool may_be_open);

/* Takes one line, without blanks at its end. */
enum script_step script_take(struct script *script, const char *line);

/* Opens a script. False: it cannot be opened. */
bool script_open(struct script *script, const char *path, bool may_be_open);

/* Reads a line. */
enum script_step script_next(struct script *script);

void script_close(struct script *script);

/* Prints the fault of a line with the word that it is about, in one line without
 * its end. */
void script_show_fault(FILE *stream, const struct script *script);

#endif
