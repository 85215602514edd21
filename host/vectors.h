/*
 * What the parts of the program `vectors` share: how an example of the papers
 * is turned into what a call takes, and how a call's answer is held to it.
 */
#ifndef HOST_VECTORS_H
#define HOST_VECTORS_H

#include "quillgimlet.h"

#define BLOCK 8
#define ACCOUNT 12
#define PIN_MOST 12
#define TABLE 16
#define OFFSET 12
#define PVV 4

/* An output of this many bytes is lent, longer than any call needs, so that
 * the bytes that must keep their values are seen. */
#define LENT 80
#define UNTOUCHED 0xA5

/* How many rows a table has. */
#define COUNT(rows) (sizeof (rows) / sizeof (rows)[0])

/* Room for the words that say what was done. */
#define DEED 64

/* The usual settings with a header's length and variable length or not; and
 * restricted formats by name, Yes or No. The paper's usual is No; request 5 made
 * it Yes. */
#define USUAL_WITH(header, variable) { header, 1, variable }
#define USUAL USUAL_WITH(4, 0)
#define VARIABLE USUAL_WITH(4, 1)
#define RESTRICTED { 4, 1, 0 }
#define UNRESTRICTED { 4, 0, 0 }

extern const qg_settings usual;
extern const qg_settings unrestricted;

/* The account of the paper's figures, and their PIN 34567 in a block: P2's. */
extern const char paper_account[];
extern const char paper_block[];
#define PAPER_FORMAT 1

/* The block that an instructor sent, says request 2: PIN 1234 in format 03,
 * with rubbish behind the first F. */
extern const char instructors_block[];
#define INSTRUCTORS_FORMAT 3

/* A block from its sixteen hex characters, and any bytes with their count. */
void block_of(const char *hex, uint8_t *block);
size_t bytes_of(const char *hex, uint8_t *bytes);

/* A PIN's digit values from its digit characters. */
size_t digits_of(const char *digits, uint8_t *values);

/* Characters as a call takes them. */
const uint8_t *characters(const char *text);

/* A digit character that is not this one. */
uint8_t another_digit(uint8_t digit);

/* Makes an output that no call has written to. */
void untouched(uint8_t *out);

/* Holds a reply and the lent output to what they must be: all that the reply
 * tells, the bytes written, and every byte behind them untouched. */
void hold_reply(const char *deed, const char *source, qg_reply reply,
	const uint8_t *out, qg_reply expected, const uint8_t *bytes);

/* The same below the command level, where no reply points at anything: place
 * and field are 0. */
void hold(const char *deed, const char *source, qg_reply reply,
	const uint8_t *out, uint32_t number, const uint8_t *bytes, size_t len);

/* Holds a refusal: the number, and an output left as it was. */
void hold_refused(const char *deed, const char *source, qg_reply reply,
	const uint8_t *out, uint32_t number);

/* Holds a verdict, which is lent no output. */
void hold_verdict(const char *deed, const char *source, qg_reply reply,
	uint32_t number);

/* Holds an input that was lent to what it was before the call. */
void hold_kept(const char *deed, const char *source, const uint8_t *lent,
	const uint8_t *was, size_t len);

/* The parts of the program. */
void block_vectors(void);
void offset_vectors(void);
void pvv_vectors(void);
void command_vectors(void);
void cipher_vectors(void);
void lab_vectors(void);

#endif
