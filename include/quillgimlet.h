/*
 * Quillgimlet: the part of a classroom payment HSM between the host's bytes
 * and the response. This header is the manual of its C face. The calls that
 * encipher and decipher with clear keys, and that answer a command without a
 * key box, are for classrooms: quillgimlet_lab.h is their manual, and they are
 * in the same archive.
 *
 * Link with libquillgimlet.a, which is code for x86-64 Linux. The library keeps
 * no state between calls and allocates nothing; any number of threads may call
 * it at once.
 *
 *
 * RUNS
 *
 * Bytes are handed over as a run: a pointer and the number of bytes behind
 * it, `x` and `x_len`. What holds for every run of every call:
 *
 *   - The pointer is valid and not null, also where the length is 0: any
 *     valid address will do then, and nothing is read through it.
 *   - Lent buffers never overlap: no byte belongs to two runs of one call.
 *   - Every length is admitted. A length that a call cannot use is answered
 *     with a number, as each call says below.
 *   - Input runs are read and never written.
 *
 * What the bytes of a run are:
 *
 *   - A command and a response are the bytes on the line, without the two
 *     length bytes before them.
 *   - Blocks, enciphered blocks and fill are plain bytes; nibbles count from
 *     the left, the high half of a byte before its low half.
 *   - An account is characters, '0' to '9' (30 to 39 hex), as in a command:
 *     the 12 rightmost digits of the card number without its check digit.
 *   - A decimalisation table, validation data, an offset and a PVV are
 *     characters too, as in a command. Hex letters are capitals, 'A' to 'F'.
 *   - A PIN is digit values, 0 to 9, one to a byte, and not characters; so is
 *     a natural PIN.
 *
 * Parameters stand in one order everywhere: settings, numbers, input runs,
 * output.
 *
 *
 * FORMATS
 *
 * A format is the value of its two-digit code: format 01 is 1, 35 is 35.
 *
 *   code   control   fill      XOR with the account field
 *    01       0      F         yes
 *    03       -      F         no      (digits and fill alone)
 *    05       1      any       no
 *    34       2      F         no
 *    35       2      F         yes
 *    47       3      A to F    yes
 *
 * A block is sixteen nibbles: control, PIN length, the PIN's digits, fill.
 * Format 03 has neither control nor length. The account field is four zero
 * nibbles and the 12 account digits. Codes 41, 42 and 48 are known and not
 * built.
 *
 *
 * WHAT A CALL ANSWERS
 *
 * Each call judges what it was handed in a fixed order and answers the number
 * of the first fault. The order is listed with the call: of several faults the
 * one listed first decides. The numbers:
 *
 *    00   done; of a verdict, that of DA and EA too: the PIN verifies
 *    01   of a verdict, that of DA and EA too: the PIN does not verify
 *    03   a command's weak PIN count is not two digits, or its list has fewer
 *         digits than count times length
 *    10   the parity of the PIN key is bad
 *    11   the parity of the PVK is bad
 *    15   a command's field short, of a wrong alphabet or outside its range,
 *         anything left over behind the last, or LMK ids that disagree; a
 *         block, an enciphered block or fill that is not 8 bytes; an account
 *         that is not 12 digit characters; a table that is not 16 characters;
 *         validation data, an offset or a PVV malformed; a check length
 *         outside 4 to 12; a key index over 6
 *    20   control, digit or fill wrong in a block; a digit over 9 in a PIN or
 *         a natural PIN handed in
 *    23   format code not among 01 03 05 34 35 41 42 47 48
 *    24   PIN length outside 4 to 12, that of a PIN handed in too; a natural
 *         PIN handed in with another length than its PIN
 *    25   a decimalisation table holds a character that is not a digit
 *    26   key scheme letter, key block version or key block length wrong
 *    29   usage, algorithm or mode of a key block not permitted
 *    68   command code other than BK, DA and EA
 *    69   format known but not built, or not allowed here
 *    81   check length longer than the PIN, or an offset with another number
 *         of digits than it must cover
 *    86   the PIN is on the command's weak list
 *   901   lent output too short
 *   902   no frame: header setting over 16, command over 4096 bytes or under
 *         header + 2, or a header byte outside 20 to 7E hex
 *
 * qg_ask, qg_pin_block and qg_answer take a host command. The calls declared
 * behind them are those below the command level.
 *
 * For qg_ask, qg_pin_block and below the command level any number but 00 means
 * that nothing was written, and `written` is 0. After 00 the call has written
 * the first `written` bytes of `out`, and the bytes of `out` behind them keep
 * the values they had. A verdict call is lent no output and writes nothing, for
 * 00 neither.
 *
 * qg_answer writes a response for every number but 901 and 902: its refusals
 * are responses too, and so is a verdict 01. What it writes is listed with it.
 *
 * Of a command that is refused for one of its fields the reply also says which
 * field that is and where it begins, so that a 15 need not be searched for:
 * WHICH CHARACTER, below, tells of it.
 */

#ifndef QUILLGIMLET_H
#define QUILLGIMLET_H

#include <stddef.h>
#include <stdint.h>

#ifdef __cplusplus
extern "C" {
#endif

/*
 * The settings of the box, passed by value.
 *
 *   header       length of a command's header in bytes, 0 to 16; usual 4. A
 *                value over 16 is 902 where a command is judged. No call below
 *                the command level reads it.
 *   restricted   restricted formats; usual Yes. Of the commands only BK goes by
 *                it: it takes 01 and 47, or with No all six. Below the command
 *                level only qg_translate reads it.
 *   variable     variable length offset; usual No. All three commands go by
 *                it. Below the command level only the four calls that take a
 *                check length read it.
 *
 * A flag is a uint8_t: 0 is No and any other value is Yes.
 */
typedef struct {
	size_t header;
	uint8_t restricted;
	uint8_t variable;
} qg_settings;

/*
 * What a call answers.
 *
 *   number    one of the numbers above.
 *   written   how many bytes, digits, characters or differences the call
 *             wrote at the start of the lent output. It is 0 for every number
 *             but 00, and for every verdict call; of qg_answer it is the
 *             length of the response, and 0 for 901 and 902 alone.
 *   place     of the calls that take a command: where the field at fault
 *             begins, or the first byte left over. It is a position counted
 *             from 0, the header counted in; the command's length where nothing
 *             stands there, and 0 where the reply points at nothing.
 *   field     of the same calls: the number of the field at fault, as the table
 *             of the command counts it; 0 where there is none.
 *
 * What they point at is listed under WHICH CHARACTER, below. Both are 0 for 00,
 * and for every call below the command level, whatever its number.
 *
 * A reply has 16 bytes. Before it told place and field it had 8: a server that
 * was compiled against that header must be compiled again, and needs no other
 * change.
 */
typedef struct {
	uint32_t number;
	uint32_t written;
	uint32_t place;
	uint32_t field;
} qg_reply;

/*
 * The usual settings: header 4, restricted 1, variable 0. The call takes
 * nothing, judges nothing and writes nothing.
 *
 * Before version 0.3.0 `restricted` was 0 here. A server whose hosts send BK
 * with format 03, 05, 34 or 35, or that translates a pair that is not on the
 * restricted list of qg_translate, now asks for No by name:
 *
 *    qg_settings settings = qg_usual();
 *    settings.restricted = 0;
 *
 * Without that each is refused with 69 where its format is judged, BK at field
 * 5. No other answer of any call is touched.
 */
qg_settings qg_usual(void);


/* ======================================================================
 * Host commands
 *
 * Three commands are built. BK makes the offset for a terminal PIN. DA and EA
 * verify a PIN against an offset that the host presents: DA where the PIN block
 * is under a terminal key, EA where it is under a zone key. Each takes three
 * calls.
 *
 *   1. The server hands the command to qg_ask, which writes the block that the
 *      key box must encipher under the PVK, and to qg_pin_block, which writes
 *      the command's PIN block, that the key box must decipher.
 *   2. The key box enciphers the one under the PVK, deciphers the other under
 *      the PIN key and judges the parity of both keys.
 *   3. The server hands the command to qg_answer again, with what the key box
 *      made of it, and qg_answer writes the response.
 *
 * No call leans on another: each reads and judges the whole command. Key
 * unwrapping and the authentication of key blocks are the key box's. A class
 * that has none needs one call alone, qg_lab_answer of quillgimlet_lab.h.
 *
 * What is left to the server:
 *
 *   - Where qg_ask refuses, there is nothing to ask the key box, and
 *     qg_pin_block refuses with the same number, place and field. The server
 *     calls qg_answer all the same, with any 8 bytes for either block and any
 *     parities: it alone writes the response, and it refuses with the same
 *     number before it looks at what the key box made. (901 is the server's own
 *     fault: each call judges its own output.)
 *   - The keys that the key box needs stand in the command: in fields 2 and 3
 *     of BK, in fields 1 and 2 of DA and EA. No call hands them out: after
 *     qg_ask has answered 00 the server cuts them out itself, by the tables
 *     below.
 *   - The paper has no number for a key box that fails otherwise than by a
 *     parity, as where a key block does not authenticate or the box is silent.
 *     The server then has two ways. It lends the block that is lacking with
 *     length 0, and the response to a command whose fields are in order is 15.
 *     Or it sends no response. 10 and 11 speak of parity alone.
 *
 * A command is read from the left. The two length bytes that stand before it
 * on the line are the server's affair and no part of it. "Printable" is 20 to
 * 7E hex; hex letters are capitals. The fields of BK:
 *
 *        header       printable, as many as the setting says
 *        code         two characters: BK
 *    1   key type     three characters: 001, 002 or FFF
 *    2   PIN key      for 001 and 002 'U' and 32 hex, or 'T' and 48 hex; for
 *                     FFF 'S' and a key block
 *    3   PVK          the same; 'U' in one and 'T' in the other will do
 *    4   PIN block    16 characters: the block as it came, enciphered. They
 *                     must be hex; otherwise they are not looked at
 *    5   format       two digits
 *    6   check        two digits: the check length, 04 to 12
 *    7   account      12 digits
 *    8   table        16 digits: the decimalisation table
 *    9   validation   beginning with 'P': it and 16 hex; else 12 characters,
 *                     eleven hex and exactly one 'N', which stands for the
 *                     last five account digits
 *   10   weak PINs    optional: ';' and a count of two digits; where that is
 *                     not 00, the length of an entry in two digits, 04 to 12,
 *                     and the list, count times length digits
 *   11   LMK id       optional: '%' and 00 to 09
 *   12   trailer      optional: byte 19 hex and 0 to 32 printable characters;
 *                     ';' and '%' are text in it
 *
 * The fields of DA and of EA. There is no key type and no weak list:
 *
 *        header       as in BK
 *        code         two characters: DA or EA
 *    1   PIN key      'U' and 32 hex, 'T' and 48 hex, or 'S' and a key block
 *    2   PVK          the same; each goes by its own letter, and 'U' in one and
 *                     'S' in the other will do
 *    3   maximum      two characters: 12, the maximum PIN length. No other is
 *                     taken, and the PIN is not compared with it
 *    4 to 9           as in BK: PIN block, format, check, account, table,
 *                     validation
 *   10   offset       12 characters: 4 to 12 digits, then only 'F'
 *   11   LMK id       optional: as in BK
 *   12   trailer      optional: as in BK
 *
 * A key block is printable. Its bytes count from 0, behind the letter 'S':
 *
 *    0       version, '0' or '1'
 *    1-4     length in four digits, 0016 to 0512, the version counted in
 *    5-6     usage:      of the PIN key P0, 71 or 72 in BK, P0 or 71 in DA, P0
 *                        or 72 in EA; of the PVK V1
 *    7       algorithm:  T
 *    8       mode:       of the PIN key B, D or N; of the PVK C, G or N in BK,
 *                        C, V or N in DA and EA
 *    9-13    must be printable; otherwise they are not judged
 *    14-15   LMK id, 00 to 09
 *    16-     whatever follows to the length
 *
 * How every call judges the fields: from the left, the first fault deciding,
 * and in each part a missing character before a wrong one. Those of BK:
 *
 *    field 1      15   short, or none of the three
 *    2, then 3    15   the letter is missing
 *                 26   the letter is not one that the key type wants
 *                      behind 'U' or 'T':
 *                 15   characters are missing, or one of them is not hex
 *                      behind 'S':
 *                 15   version and length have not five characters
 *                 26   the version or the length is wrong
 *                 15   the block ends before its length, or a character of it
 *                      is not printable
 *                 29   usage, algorithm or mode is not permitted
 *                 15   the LMK id is not 00 to 09
 *    4            15   short, or a character is not hex
 *    5            15   short, or not two digits
 *                 23   the code is unknown
 *                 69   the format is 41, 42 or 48; or `restricted` is Yes and
 *                      it is neither 01 nor 47
 *    6            15   short, or not 04 to 12
 *    7            15   short, or a character is not a digit
 *    8            15   short
 *                 25   a character is not a digit
 *    9            15   short, or of neither form
 *    10           03   the count is short or not two digits
 *                 15   the length is short or not 04 to 12
 *                 03   the list is short, or a character of it is not a digit
 *    11           15   short, or not 00 to 09
 *    12           15   one of its characters is not printable, a second 19
 *                      hex included
 *    the end      15   anything behind the last field, a trailer's characters
 *                      behind the thirty-second included
 *                 15   the LMK ids of fields 2, 3 and 11, as many as there
 *                      are, do not all agree
 *
 * Those of DA and EA are judged alike, but for these:
 *
 *    1, then 2    as BK's 2 and 3, where 26 is a letter other than 'U', 'T' and
 *                 'S'
 *    3            15   short, or not 12
 *    5            69   the format is 41, 42 or 48. All six that are built are
 *                      taken: `restricted` changes nothing
 *    10           15   short, or not 4 to 12 digits and then only 'F'
 *    the end      15   the LMK ids of fields 1, 2 and 11, as many as there
 *                      are, do not all agree
 *
 *
 * WHICH CHARACTER
 *
 * The host hears the number alone, and 15 may be any field. The server hears in
 * `place` and `field` where to look. Every call that takes a command tells it,
 * and of the same fault the same:
 *
 *    number                        place                  field
 *    03, 15, 23, 25, 26, 29, 69    where that field       its number
 *       of a field                 begins
 *    15 of something left over     its first byte         0
 *    15 of ids that disagree       where the field with   its number
 *                                  the last id begins
 *    15 of pin_block_len or        command_len            0
 *       enciphered_len
 *    00, 01, 10, 11, 20, 24, 68,   0                      0
 *       81, 86, 901, 902
 *
 * The numbers of the fields, and the character that each begins with:
 *
 *    field   of BK                       of DA and EA
 *      1     key type      its first     PIN key       its letter
 *      2     PIN key       its letter    PVK           its letter
 *      3     PVK           its letter    maximum       its first
 *      4     PIN block     its first     PIN block     its first
 *      5     format        its first     format        its first
 *      6     check         its first     check         its first
 *      7     account       its first     account       its first
 *      8     table         its first     table         its first
 *      9     validation    its first     validation    its first
 *     10     weak PINs     ';'           offset        its first
 *     11     LMK id        '%'           LMK id        '%'
 *     12     trailer       19 hex        trailer       19 hex
 *
 *   - It is where the field begins, and not the character that is wrong in it.
 *     A field of which nothing came begins where the command ends: `place` is
 *     command_len then.
 *   - Left over is what is behind the last field that is there, and behind the
 *     thirty-second character of a trailer. A wrong character among those 32 is
 *     the trailer's.
 *   - The last id is the rightmost that is there: the one behind '%', or else
 *     that of the later key block. It is pointed at also where it agrees with
 *     another. Where something is left over too, that decides.
 *   - `place` is 0 only where there is nothing to point at. Where `field` is 0
 *     and `place` is not, `place` is under command_len for something left over,
 *     and it is command_len for a block that is not 8 bytes.
 *
 * They are for the server's log, and for the student who wrote the command:
 *
 *    if (reply.place != 0)
 *        fprintf(log, "number %02u, field %u, from character %u on\n",
 *            (unsigned)reply.number, (unsigned)reply.field,
 *            (unsigned)reply.place);
 *
 * Never send them to the host: it hears the number and nothing more. No byte of
 * a response comes of them. It is enough to look at what qg_answer tells, which
 * is all that the others tell and a block that is not 8 bytes.
 *
 *
 * AN EXCHANGE
 *
 * With the usual settings, for the command
 *
 *    HDR1 BK 001
 *    U00000000000000000000000000000000
 *    U00000000000000000000000000000000
 *    0000000000000000 01 04 400000123456
 *    0123456789012345 0123456789AN
 *
 * (in one run, without the spaces) qg_ask writes 01 23 45 67 89 A2 34 56, and
 * qg_pin_block 00 00 00 00 00 00 00 00. With good parities, the PIN block
 * deciphered as 05 34 16 7F FF ED CB A9 and an enciphered block that begins
 * 9F 3C 0A 71 qg_answer writes HDR1BL009247FFFFFFFF: header, response code, 00,
 * offset.
 *
 * The host keeps the offset and presents it when the PIN comes again:
 *
 *    HDR1 DA
 *    U00000000000000000000000000000000
 *    U00000000000000000000000000000000
 *    12 0000000000000000 01 04 400000123456
 *    0123456789012345 0123456789AN 9247FFFFFFFF
 *
 * qg_ask and qg_pin_block write the same blocks. With what the key box made
 * above qg_answer writes HDR1DB00. With the PIN block deciphered as
 * 05 34 16 8F FF ED CB A9, whose PIN is another, it writes HDR1DB01.
 *
 * Where the fields of the two begin, 1 to 9 of the BK and 1 to 10 of the DA,
 * and at the end of each row the length of the command:
 *
 *    BK   6    9   42   75   91   93   95  107  123         135
 *    DA   6   39   72   74   90   92   94  106  122   134   146
 *
 * With check length 13 in place of 04 every call refuses the BK with number 15,
 * place 93, field 6, and the DA with number 15, place 92, field 6. With an 'X'
 * behind its last field the BK is 15, place 135, field 0.
 */

/*
 * Reads a command and writes the block that the key box must encipher under
 * the PVK: the command's validation data, as qg_validation_block makes it.
 *
 *   settings               `header` is read, and `restricted` for a BK
 *   command, command_len   the command, header included
 *   out, out_len           where the block goes: 8 bytes or more
 *
 * Numbers, in the order of judging:
 *
 *   901   out_len is under 8
 *   902   `header` is over 16, command_len is over 4096 or under header + 2,
 *         or a byte of the header is not printable
 *    68   the command code is none of BK, DA and EA
 *    15, 26, 29, 23, 69, 25, 03   the fields, judged as listed above; 03 is
 *         BK's alone. `place` and `field` point at the fault
 *    00   the block is in out
 *
 * On 00 it writes the 8 bytes of the block, and `written` is 8. All later
 * bytes of out keep their values. For any other number it writes nothing, and
 * `written` is 0: call qg_answer for the response to a refusal too. For 901,
 * 902, 68 and 00 `place` and `field` are 0.
 */
qg_reply qg_ask(qg_settings settings,
	const uint8_t *command, size_t command_len,
	uint8_t *out, size_t out_len);

/*
 * Reads a command and writes its PIN block, as it came: the bytes that the key
 * box must decipher under the PIN key.
 *
 *   settings               `header` is read, and `restricted` for a BK
 *   command, command_len   the command, header included
 *   out, out_len           where the block goes: 16 bytes or more, whatever the
 *                          command
 *
 * The block is the bytes of the command's field 4: nibble for nibble its hex
 * characters. It is under a key, and the call does not look into it: whether it
 * holds a PIN is judged when it has been deciphered, by qg_answer.
 *
 * Numbers, in the order of judging, those of qg_ask but for the room:
 *
 *   901   out_len is under 16
 *   902   `header` is over 16, command_len is over 4096 or under header + 2,
 *         or a byte of the header is not printable
 *    68   the command code is none of BK, DA and EA
 *    15, 26, 29, 23, 69, 25, 03   the fields, judged as listed above, those
 *         behind the PIN block too; 03 is BK's alone. `place` and `field` point
 *         at the fault, as those of qg_ask do
 *    00   the block is in out
 *
 * On 00 it writes the 8 bytes of the block, and `written` is 8. All later
 * bytes of out keep their values, those up to the sixteenth too. For any other
 * number it writes nothing, and `written` is 0. For 901, 902, 68 and 00 `place`
 * and `field` are 0.
 */
qg_reply qg_pin_block(qg_settings settings,
	const uint8_t *command, size_t command_len,
	uint8_t *out, size_t out_len);

/*
 * Takes a command with what the key box made of it, and writes the response.
 *
 *   settings                     `header` and `variable` are read, and
 *                                `restricted` for a BK
 *   pin_key_parity_good          the key box's answer on the PIN key: 0 is
 *                                bad, any other value good
 *   pvk_parity_good              the same on the PVK
 *   command, command_len         the command, header included
 *   pin_block, pin_block_len     the block that qg_pin_block wrote, deciphered:
 *                                8 bytes
 *   enciphered, enciphered_len   the block that qg_ask wrote, enciphered: 8
 *                                bytes
 *   out, out_len                 where the response goes: 65 bytes or more,
 *                                whatever the command and the length of the
 *                                response
 *
 * Numbers, in the order of judging. Frame, code and fields are judged here
 * again as qg_ask judges them, whether it was called or not:
 *
 *   901   out_len is under 65
 *   902   `header` is over 16, command_len is over 4096 or under header + 2,
 *         or a byte of the header is not printable
 *    68   the command code is none of BK, DA and EA
 *    15, 26, 29, 23, 69, 25, 03   the fields, judged as listed above; 03 is
 *         BK's alone. `place` and `field` point at the fault, as those of
 *         qg_ask do
 *    15   pin_block_len is not 8, or enciphered_len is not 8. `place` is
 *         command_len, and `field` 0
 *    10   pin_key_parity_good is 0
 *    11   pvk_parity_good is 0
 *    20, 24, 20   the PIN block, judged in the command's format and with its
 *         account as qg_read_block does
 *         then, of BK:
 *    81   the check length is longer than the PIN; never where `variable` is
 *         Yes
 *    86   an entry of the weak list is the PIN: of the PIN's length and digit
 *         for digit. An entry of another length never is.
 *    00   the offset is in the response
 *         of DA and EA, as qg_offset_verdict does:
 *    81   the check length is longer than the PIN, or the offset has not
 *         exactly as many digits as the check length says; where `variable` is
 *         Yes: the offset has not exactly as many digits as the PIN
 *    01   the offset is another than qg_offset makes of the same: the PIN does
 *         not verify
 *    00   it is the one: the PIN verifies
 *
 * What it writes:
 *
 *   901 and 902    nothing, and `written` is 0. Every byte of out keeps its
 *                  value.
 *   other numbers  header, response code, and the number in two digits;
 *   but 00         `written` is header + 4. No trailer, whatever the command
 *                  carries. A verdict 01 is written so too.
 *   00 of BK       header, response code, 00, and the offset in 12 characters,
 *                  digits and then 'F', as qg_offset makes it; where the
 *                  command carries a trailer, its mark 19 hex and its
 *                  characters follow, also where these are none. `written` is
 *                  header + 16, and with a trailer 1 more and its length.
 *   00 of DA, EA   header, response code, 00, and the trailer in the same way.
 *                  `written` is header + 4, and with a trailer 1 more and its
 *                  length.
 *
 * All later bytes of out keep their values, those up to the sixty-fifth too.
 * The response code is the command code with its second byte raised by one,
 * 255 becoming 0: BL for BK, DB for DA, EB for EA. Beside 68 it is that of the
 * code that came. BK never answers 01, and DA and EA never answer 03 or 86.
 *
 * For 00, 01, 10, 11, 20, 24, 68, 81, 86, 901 and 902 `place` and `field` are
 * 0. Nothing in what is written depends on them.
 */
qg_reply qg_answer(qg_settings settings,
	uint8_t pin_key_parity_good, uint8_t pvk_parity_good,
	const uint8_t *command, size_t command_len,
	const uint8_t *pin_block, size_t pin_block_len,
	const uint8_t *enciphered, size_t enciphered_len,
	uint8_t *out, size_t out_len);


/* ======================================================================
 * PIN blocks
 *
 * A block is read, written, or read in one format and written in another.
 * The account is judged for every format, also where the format does not
 * use it. These calls handle clear blocks: ciphering is the key box's, or in a
 * class that has none qg_tdes_encipher's and qg_tdes_decipher's, which
 * quillgimlet_lab.h has.
 *
 * For PIN 34567, account 400000123456 and fill bytes 00:
 *
 *    01   05 34 16 7F FF ED CB A9       34   25 34 56 7F FF FF FF FF
 *    03   34 56 7F FF FF FF FF FF       35   25 34 16 7F FF ED CB A9
 *    05   15 34 56 70 00 00 00 00       47   35 34 16 7A AA B8 9E FC
 */

/*
 * Reads the PIN out of a clear block.
 *
 *   format                the block's format
 *   block, block_len      the block: 8 bytes
 *   account, account_len  the account: 12 digit characters
 *   out, out_len          where the PIN goes: 12 bytes or more, whatever the
 *                         length of the PIN
 *
 * Numbers, in the order of judging:
 *
 *   901   out_len is under 12
 *    15   block_len is not 8, or the account is not 12 digit characters
 *    23   the format's code is unknown
 *    69   the format is 41, 42 or 48
 *         then the block, after the account field is removed where the
 *         format has it:
 *    20   the control nibble is not the format's
 *    24   the length nibble is not 4 to 12
 *    20   a digit is over 9, or a fill nibble is not one of the format's
 *    00   the PIN is in out
 *
 * Format 03 has no control and no length. Its PIN ends before the first F, or
 * at the end of the block where there is none. Its block is judged so:
 *
 *    20   a nibble before the first F is A to E
 *    24   the count of digits is not 4 to 12
 *    20   a nibble behind the first F is not F
 *
 * So 12 34 FF 99 00 00 00 00 is 20, and 12 3F 99 00 00 00 00 00 is 24.
 *
 * On 00 it writes the PIN's digits as values 0 to 9, one to a byte, and
 * `written` is the PIN's length. All later bytes of out keep their values,
 * those up to the twelfth too.
 */
qg_reply qg_read_block(uint32_t format,
	const uint8_t *block, size_t block_len,
	const uint8_t *account, size_t account_len,
	uint8_t *out, size_t out_len);

/*
 * Writes a PIN into a clear block.
 *
 *   format                the block's format
 *   pin, pin_len          the PIN: 4 to 12 digit values, 0 to 9
 *   account, account_len  the account: 12 digit characters
 *   fill, fill_len        the fill: 8 bytes, which the caller draws at random
 *   out, out_len          where the block goes: 8 bytes or more
 *
 * Nibble i of the fill is used for nibble i of the block where that is a fill
 * nibble, and for nothing else: format 05 takes it as it is; format 47 takes
 * ten plus its remainder by six, before the account is XORed in; the other
 * formats have fill F and ignore it. Eight bytes are asked for in every
 * format.
 *
 * Numbers, in the order of judging:
 *
 *   901   out_len is under 8
 *    15   the account is not 12 digit characters, or fill_len is not 8
 *    23   the format's code is unknown
 *    69   the format is 41, 42 or 48
 *    24   pin_len is not 4 to 12
 *    20   a digit of the PIN is over 9
 *    00   the block is in out
 *
 * On 00 it writes the 8 bytes of the block, and `written` is 8. All later
 * bytes of out keep their values.
 */
qg_reply qg_write_block(uint32_t format,
	const uint8_t *pin, size_t pin_len,
	const uint8_t *account, size_t account_len,
	const uint8_t *fill, size_t fill_len,
	uint8_t *out, size_t out_len);

/*
 * Translates a clear block: reads it in one format and writes its PIN in
 * another, with the same account.
 *
 *   settings              only `restricted` is read
 *   from                  the format of the block handed in
 *   to                    the format of the block to be written
 *   block, block_len      the block: 8 bytes
 *   account, account_len  the account: 12 digit characters
 *   fill, fill_len        the fill of the block to be written: 8 bytes, used
 *                         as qg_write_block uses it
 *   out, out_len          where the new block goes: 8 bytes or more
 *
 * Which pairs are allowed: without restriction every pair of the six built
 * formats, a format with itself included. Restricted: 05 to 01, 47 or 05; 01
 * to 01 or 47; 47 to 01 or 47.
 *
 * Numbers, in the order of judging:
 *
 *   901   out_len is under 8
 *    15   block_len is not 8, the account is not 12 digit characters, or
 *         fill_len is not 8
 *    23   the code of `from` is unknown, or else that of `to`
 *    69   `from` is 41, 42 or 48, or else `to` is, or else the pair is not
 *         allowed
 *    20, 24, 20   the block, judged in format `from` as qg_read_block does
 *    00   the new block is in out
 *
 * On 00 it writes the 8 bytes of the new block, and `written` is 8. All later
 * bytes of out keep their values.
 */
qg_reply qg_translate(qg_settings settings, uint32_t from, uint32_t to,
	const uint8_t *block, size_t block_len,
	const uint8_t *account, size_t account_len,
	const uint8_t *fill, size_t fill_len,
	uint8_t *out, size_t out_len);


/* ======================================================================
 * IBM 3624
 *
 * The key box enciphers a validation block. A decimalisation table turns the
 * nibbles of what comes back, from the left, into digits: the natural PIN is
 * the first n of them, where n is the length of the PIN. An offset is what
 * lies between the two, digit by digit: PIN digit less natural digit, modulo
 * ten.
 *
 * An offset covers the last digits of the PIN, as many as the check length
 * says. Where `variable` is Yes it covers all of them: the check length must
 * be 4 to 12 all the same and decides nothing else.
 *
 * An offset stands in 12 characters: its digits on the left, then 'F'.
 *
 * For PIN 34567, the table 0123456789012345 and an enciphered block that
 * begins 9F 3C 0A 71, the natural PIN is 95320:
 *
 *    check 4   9247FFFFFFFF      differences     -1  2  4  7
 *    check 5   49247FFFFFFF      differences -6  -1  2  4  7
 *    check 6   refused, 81
 *
 * Where `variable` is Yes each of the three gives what check 5 gives.
 */

/*
 * Makes the block that the key box is to encipher.
 *
 *   validation, validation_len   the validation data, in one of two forms:
 *                                12 characters, eleven hex and exactly one
 *                                'N'; or 'P' and 16 hex, 17 characters
 *   account, account_len         the account: 12 digit characters
 *   out, out_len                 where the block goes: 8 bytes or more
 *
 * 'N' is replaced by the last five account digits, which makes sixteen
 * nibbles. The form with 'P' gives its sixteen as they stand; the account is
 * judged there too and not used.
 *
 * Numbers, in the order of judging:
 *
 *   901   out_len is under 8
 *    15   the account is not 12 digit characters, or the validation data have
 *         neither form
 *    00   the block is in out
 *
 * On 00 it writes the 8 bytes of the block, and `written` is 8. All later
 * bytes of out keep their values.
 */
qg_reply qg_validation_block(const uint8_t *validation, size_t validation_len,
	const uint8_t *account, size_t account_len,
	uint8_t *out, size_t out_len);

/*
 * Makes the natural PIN.
 *
 *   length                       how many digits are wanted: 4 to 12
 *   table, table_len             the decimalisation table: 16 digit characters
 *   enciphered, enciphered_len   the enciphered validation block: 8 bytes
 *   out, out_len                 where the digits go: 12 bytes or more,
 *                                whatever `length` is
 *
 * Nibble v of the enciphered block becomes the digit at place v of the table,
 * places counted from 0.
 *
 * Numbers, in the order of judging:
 *
 *   901   out_len is under 12
 *    15   table_len is not 16, or enciphered_len is not 8
 *    25   a character of the table is not a digit
 *    24   `length` is not 4 to 12
 *    00   the natural PIN is in out
 *
 * On 00 it writes the digits as values 0 to 9, one to a byte, and `written` is
 * `length`. All later bytes of out keep their values, those up to the twelfth
 * too.
 */
qg_reply qg_natural_pin(uint32_t length,
	const uint8_t *table, size_t table_len,
	const uint8_t *enciphered, size_t enciphered_len,
	uint8_t *out, size_t out_len);

/*
 * Makes the offset of the PIN in a clear block.
 *
 *   settings                     only `variable` is read
 *   format                       the block's format
 *   check                        the check length: 4 to 12
 *   block, block_len             the block: 8 bytes
 *   account, account_len         the account: 12 digit characters
 *   table, table_len             the decimalisation table: 16 digit characters
 *   enciphered, enciphered_len   the enciphered validation block: 8 bytes
 *   out, out_len                 where the offset goes: 12 bytes or more
 *
 * Numbers, in the order of judging:
 *
 *   901   out_len is under 12
 *    15   `check` is not 4 to 12, block_len is not 8, the account is not 12
 *         digit characters, table_len is not 16, or enciphered_len is not 8
 *    23   the format's code is unknown
 *    69   the format is 41, 42 or 48
 *    25   a character of the table is not a digit
 *    20, 24, 20   the block, judged as qg_read_block does
 *    81   `check` is longer than the PIN; never where `variable` is Yes
 *    00   the offset is in out
 *
 * On 00 it writes 12 characters, the digits and then 'F', and `written` is 12.
 * All later bytes of out keep their values.
 */
qg_reply qg_offset(qg_settings settings, uint32_t format, uint32_t check,
	const uint8_t *block, size_t block_len,
	const uint8_t *account, size_t account_len,
	const uint8_t *table, size_t table_len,
	const uint8_t *enciphered, size_t enciphered_len,
	uint8_t *out, size_t out_len);

/*
 * Makes the offset of a PIN against a natural PIN, both handed in as digits.
 *
 *   settings               only `variable` is read
 *   check                  the check length: 4 to 12
 *   pin, pin_len           the PIN: 4 to 12 digit values, 0 to 9
 *   natural, natural_len   the natural PIN: as many digit values
 *   out, out_len           where the offset goes: 12 bytes or more
 *
 * Numbers, in the order of judging. The PIN's length comes before its digits,
 * the natural PIN's behind them:
 *
 *   901   out_len is under 12
 *    15   `check` is not 4 to 12
 *    24   pin_len is not 4 to 12
 *    20   a digit of the PIN is over 9
 *    20   a digit of the natural PIN is over 9, in a run of any length
 *    24   natural_len is not pin_len
 *    81   `check` is longer than the PIN; never where `variable` is Yes
 *    00   the offset is in out
 *
 * On 00 it writes 12 characters, the digits and then 'F', and `written` is 12.
 * All later bytes of out keep their values.
 */
qg_reply qg_offset_of_digits(qg_settings settings, uint32_t check,
	const uint8_t *pin, size_t pin_len,
	const uint8_t *natural, size_t natural_len,
	uint8_t *out, size_t out_len);

/*
 * Gives the differences behind an offset, not reduced modulo ten: PIN digit
 * less natural digit, -9 to 9.
 *
 *   settings               only `variable` is read
 *   check                  the check length: 4 to 12
 *   pin, pin_len           the PIN: 4 to 12 digit values, 0 to 9
 *   natural, natural_len   the natural PIN: as many digit values
 *   out, out_len           where the differences go: 12 signed bytes or more,
 *                          however many are covered
 *
 * Numbers, in the order of judging, those of qg_offset_of_digits:
 *
 *   901   out_len is under 12
 *    15   `check` is not 4 to 12
 *    24   pin_len is not 4 to 12
 *    20   a digit of the PIN is over 9
 *    20   a digit of the natural PIN is over 9, in a run of any length
 *    24   natural_len is not pin_len
 *    81   `check` is longer than the PIN; never where `variable` is Yes
 *    00   the differences are in out
 *
 * On 00 it writes the covered differences from the left, one to a byte, and
 * `written` is how many: `check`, or pin_len where `variable` is Yes. All
 * later bytes of out keep their values, those up to the twelfth too.
 */
qg_reply qg_differences(qg_settings settings, uint32_t check,
	const uint8_t *pin, size_t pin_len,
	const uint8_t *natural, size_t natural_len,
	int8_t *out, size_t out_len);

/*
 * Judges whether the PIN in a clear block verifies against an offset.
 *
 *   settings                     only `variable` is read
 *   format                       the block's format
 *   check                        the check length: 4 to 12
 *   block, block_len             the block: 8 bytes
 *   account, account_len         the account: 12 digit characters
 *   table, table_len             the decimalisation table: 16 digit characters
 *   enciphered, enciphered_len   the enciphered validation block: 8 bytes
 *   offset, offset_len           the offset presented: 12 characters, 4 to 12
 *                                digits and then only 'F'
 *
 * Numbers, in the order of judging:
 *
 *    15   `check` is not 4 to 12, block_len is not 8, the account is not 12
 *         digit characters, table_len is not 16, enciphered_len is not 8, or
 *         the offset has another form
 *    23   the format's code is unknown
 *    69   the format is 41, 42 or 48
 *    25   a character of the table is not a digit
 *    20, 24, 20   the block, judged as qg_read_block does
 *    81   `check` is longer than the PIN, or the offset has not exactly
 *         `check` digits; where `variable` is Yes: the offset has not exactly
 *         as many digits as the PIN
 *    01   the offset is another than qg_offset makes of the same
 *    00   it is the one
 *
 * It writes nothing, and `written` is 0 for 00 too.
 */
qg_reply qg_offset_verdict(qg_settings settings,
	uint32_t format, uint32_t check,
	const uint8_t *block, size_t block_len,
	const uint8_t *account, size_t account_len,
	const uint8_t *table, size_t table_len,
	const uint8_t *enciphered, size_t enciphered_len,
	const uint8_t *offset, size_t offset_len);


/* ======================================================================
 * ABA PVV
 *
 * The key box enciphers an input of sixteen nibbles: the last 11 account
 * digits, the key index and the first four PIN digits. The PVV is the first
 * four nibbles 0 to 9 of what comes back, from the left; where there are
 * fewer, the nibbles A to F, again from the left and less ten, complete it.
 *
 *    0A 5F C3 E1 7B 2D 94 88   0531
 *    AB CD EF AB CD EF 1A B2   1201
 *    FF FF FF FF FF FF FF FF   5555
 */

/*
 * Makes the input that the key box is to encipher, from a clear block.
 *
 *   format                the block's format
 *   index                 the key index: 0 to 6
 *   block, block_len      the block: 8 bytes
 *   account, account_len  the account: 12 digit characters
 *   out, out_len          where the input goes: 8 bytes or more
 *
 * Numbers, in the order of judging:
 *
 *   901   out_len is under 8
 *    15   block_len is not 8, the account is not 12 digit characters, or
 *         `index` is over 6
 *    23   the format's code is unknown
 *    69   the format is 41, 42 or 48
 *    20, 24, 20   the block, judged as qg_read_block does
 *    00   the input is in out
 *
 * On 00 it writes the 8 bytes of the input, and `written` is 8. All later
 * bytes of out keep their values. For account 400000123456, index 1 and PIN
 * 34567 the input is 00 00 01 23 45 61 34 56.
 */
qg_reply qg_pvv_input(uint32_t format, uint32_t index,
	const uint8_t *block, size_t block_len,
	const uint8_t *account, size_t account_len,
	uint8_t *out, size_t out_len);

/*
 * Makes the PVV of an enciphered input.
 *
 *   enciphered, enciphered_len   the enciphered input: 8 bytes
 *   out, out_len                 where the PVV goes: 4 bytes or more
 *
 * Numbers, in the order of judging:
 *
 *   901   out_len is under 4
 *    15   enciphered_len is not 8
 *    00   the PVV is in out
 *
 * On 00 it writes four digit characters, and `written` is 4. All later bytes
 * of out keep their values.
 */
qg_reply qg_pvv(const uint8_t *enciphered, size_t enciphered_len,
	uint8_t *out, size_t out_len);

/*
 * Judges whether a PIN verifies against a PVV.
 *
 *   format                       the block's format
 *   index                        the key index: 0 to 6
 *   block, block_len             the block that the input was made from: 8
 *                                bytes
 *   account, account_len         the account: 12 digit characters
 *   enciphered, enciphered_len   the enciphered input: 8 bytes
 *   pvv, pvv_len                 the PVV presented: 4 digit characters
 *
 * Index, block and account are judged, and the PVV presented is compared with
 * the one that the enciphered input makes, and with nothing else. That the key
 * box was handed the input of this index, block and account is the caller's
 * to see to.
 *
 * Numbers, in the order of judging:
 *
 *    15   block_len is not 8, the account is not 12 digit characters, `index`
 *         is over 6, enciphered_len is not 8, or the PVV is not 4 digit
 *         characters
 *    23   the format's code is unknown
 *    69   the format is 41, 42 or 48
 *    20, 24, 20   the block, judged as qg_read_block does
 *    01   the PVV is another than qg_pvv makes of the enciphered input
 *    00   it is the one
 *
 * It writes nothing, and `written` is 0 for 00 too.
 */
qg_reply qg_pvv_verdict(uint32_t format, uint32_t index,
	const uint8_t *block, size_t block_len,
	const uint8_t *account, size_t account_len,
	const uint8_t *enciphered, size_t enciphered_len,
	const uint8_t *pvv, size_t pvv_len);

#ifdef __cplusplus
}
#endif

#endif
