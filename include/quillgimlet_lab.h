/*
 * Quillgimlet for a class without a key box: DES and triple DES with clear
 * keys, and a call that answers a whole command with two of them. This header
 * is the manual of these calls. They are in libquillgimlet.a beside those of
 * quillgimlet.h, which it includes, and what that header says of runs, numbers
 * and replies holds here too. Its rule that lent runs never overlap has two
 * traps here:
 *
 *   - A block is not ciphered in place: `out` is another buffer than `block`.
 *   - A server with one key for both uses lends qg_lab_answer two copies of it.
 *
 * These calls are for classrooms. A key stands in the server's memory, in the
 * clear, for as long as the server keeps it there. Nothing here unwraps a key,
 * and nothing keeps one secret:
 *
 *   - How long a call takes, and what it leaves in the processor's caches, go
 *     by key and data: the boxes of DES are looked up in tables. Nothing is
 *     claimed of either. Never hand these calls a key that is worth guarding.
 *   - A call keeps nothing when it has returned, but does not wipe the stack
 *     that it used. Nor does it wipe what it was lent: the server wipes its
 *     keys itself when it is done with them.
 *
 *
 * KEYS
 *
 * DES and triple DES are those of FIPS 46-3. A key is plain bytes:
 *
 *    8 bytes    a DES key
 *   16 bytes    a lab key of two: K1 and K2. Its third key is K1 again
 *   24 bytes    a lab key of three: K1, K2 and K3
 *
 * Triple DES enciphers under K1, deciphers under K2 and enciphers under K3; it
 * deciphers in the opposite order with the opposite steps. A lab key has 16 or
 * 24 bytes and no other length: one of 8 bytes is none.
 *
 * The last bit of each byte is the byte's parity and does not enter the cipher:
 * two keys that differ in these bits alone encipher alike. A key has odd parity
 * where every byte of it has an odd number of ones. The four cipher calls and
 * qg_key_check take a key of any parity; qg_lab_answer refuses one that is not
 * odd. Nothing here looks whether a key is weak or its parts are equal.
 *
 * The numbers are those of quillgimlet.h. Of these calls
 *
 *    10   the PIN key has not odd parity; of qg_lab_answer alone
 *    11   the PVK has not odd parity; of qg_lab_answer alone
 *    15   also a key of a length that the call does not take, or a block that
 *         is not 8 bytes
 *
 * qg_odd_parity answers yes or no and has no reply. The others but qg_lab_answer
 * are below the command level: for any number but 00 they write nothing and
 * `written` is 0, and `place` and `field` are 0 always.
 */

#ifndef QUILLGIMLET_LAB_H
#define QUILLGIMLET_LAB_H

#include "quillgimlet.h"

#ifdef __cplusplus
extern "C" {
#endif

/* ======================================================================
 * DES and triple DES
 *
 * A block at a time: what is made of several blocks, and with which mode, is
 * the server's. Deciphering undoes enciphering under the same key, and the
 * other way round, for every key and block.
 *
 * The block 01 23 45 67 89 AB CD E7
 *
 *    under 01 23 45 67 89 AB CD EF                    C9 57 44 25 6A 5E D3 1D
 *    under 01 23 45 67 89 AB CD EF
 *          FE DC BA 98 76 54 32 10                    7F 1D 0A 77 82 6B 8A FF
 *    under 01 23 45 67 89 AB CD EF
 *          FE DC BA 98 76 54 32 10
 *          89 AB CD EF 01 23 45 67                    DE 0B 7C 06 AE 5E 0E D5
 */

/*
 * Enciphers a block with DES.
 *
 *   key, key_len       the key: 8 bytes
 *   block, block_len   the block: 8 bytes
 *   out, out_len       where the enciphered block goes: 8 bytes or more
 *
 * Numbers, in the order of judging:
 *
 *   901   out_len is under 8
 *    15   key_len is not 8, or block_len is not 8
 *    00   the enciphered block is in out
 *
 * On 00 it writes the 8 bytes of the enciphered block, and `written` is 8. All
 * later bytes of out keep their values.
 */
qg_reply qg_des_encipher(const uint8_t *key, size_t key_len,
	const uint8_t *block, size_t block_len,
	uint8_t *out, size_t out_len);

/*
 * Deciphers a block with DES.
 *
 *   key, key_len       the key: 8 bytes
 *   block, block_len   the enciphered block: 8 bytes
 *   out, out_len       where the block goes: 8 bytes or more
 *
 * Numbers, in the order of judging:
 *
 *   901   out_len is under 8
 *    15   key_len is not 8, or block_len is not 8
 *    00   the block is in out
 *
 * On 00 it writes the 8 bytes of the block, and `written` is 8. All later bytes
 * of out keep their values.
 */
qg_reply qg_des_decipher(const uint8_t *key, size_t key_len,
	const uint8_t *block, size_t block_len,
	uint8_t *out, size_t out_len);

/*
 * Enciphers a block with triple DES.
 *
 *   key, key_len       the lab key: 16 or 24 bytes
 *   block, block_len   the block: 8 bytes
 *   out, out_len       where the enciphered block goes: 8 bytes or more
 *
 * Numbers, in the order of judging:
 *
 *   901   out_len is under 8
 *    15   key_len is neither 16 nor 24, or block_len is not 8
 *    00   the enciphered block is in out
 *
 * On 00 it writes the 8 bytes of the enciphered block, and `written` is 8. All
 * later bytes of out keep their values.
 *
 * This is how a PIN is sealed: qg_write_block makes the block, and this call
 * enciphers it under the PIN key. Its 16 hex characters are the PIN block of a
 * command.
 */
qg_reply qg_tdes_encipher(const uint8_t *key, size_t key_len,
	const uint8_t *block, size_t block_len,
	uint8_t *out, size_t out_len);

/*
 * Deciphers a block with triple DES.
 *
 *   key, key_len       the lab key: 16 or 24 bytes
 *   block, block_len   the enciphered block: 8 bytes
 *   out, out_len       where the block goes: 8 bytes or more
 *
 * Numbers, in the order of judging:
 *
 *   901   out_len is under 8
 *    15   key_len is neither 16 nor 24, or block_len is not 8
 *    00   the block is in out
 *
 * On 00 it writes the 8 bytes of the block, and `written` is 8. All later bytes
 * of out keep their values.
 */
qg_reply qg_tdes_decipher(const uint8_t *key, size_t key_len,
	const uint8_t *block, size_t block_len,
	uint8_t *out, size_t out_len);


/* ======================================================================
 * Keys by themselves
 */

/*
 * Makes the check value of a lab key, by which two people can see that they
 * have the same key without saying it: the first 3 bytes of a block of zeros
 * enciphered under it.
 *
 *   key, key_len   the lab key: 16 or 24 bytes
 *   out, out_len   where the check value goes: 3 bytes or more
 *
 * Numbers, in the order of judging:
 *
 *   901   out_len is under 3
 *    15   key_len is neither 16 nor 24: a key of 8 bytes has no check value
 *    00   the check value is in out
 *
 * On 00 it writes the 3 bytes of the check value, and `written` is 3. All later
 * bytes of out keep their values. Keys that differ in parity bits alone have
 * the same check value.
 *
 * For 01 23 45 67 89 AB CD EF 80 80 80 80 80 80 80 80 FE DC BA 98 76 54 32 10
 * it is 8E 0E C0.
 */
qg_reply qg_key_check(const uint8_t *key, size_t key_len,
	uint8_t *out, size_t out_len);

/*
 * Judges the parity of a key: 1 where every byte of it has an odd number of
 * ones, 0 where one has an even number.
 *
 *   key, key_len   the key, of any length; of none it is 1
 *
 * It refuses nothing and writes nothing. What it answers is what qg_answer
 * takes for a parity.
 */
uint8_t qg_odd_parity(const uint8_t *key, size_t key_len);


/* ======================================================================
 * A command without a key box
 *
 * With the usual settings, the PIN key
 *
 *    01 23 45 67 89 AB CD EF FE DC BA 98 76 54 32 10    check value 08D7B4
 *
 * and the PVK
 *
 *    89 AB CD EF 01 23 45 67 76 54 32 10 FE DC BA 98    check value EB7A8D
 *
 * PIN 34567 of account 400000123456 in format 01 is 05 34 16 7F FF ED CB A9
 * and, sealed under the PIN key, A6 C2 7D 97 17 22 74 71. For the BK command of
 * quillgimlet.h with A6C27D9717227471 as its PIN block qg_lab_answer writes
 * HDR1BL002636FFFFFFFF. For the DA with this PIN block and with the offset
 * 2636FFFFFFFF it writes HDR1DB00.
 */

/*
 * Takes a command and two lab keys, and writes the response: qg_answer, with
 * what a key box that holds these keys would make of the command. It enciphers
 * the block of qg_ask under the PVK, deciphers that of qg_pin_block under the
 * PIN key and judges the parity of both keys by itself, so that a server needs
 * no other call.
 *
 *   settings               `header` and `variable` are read, and `restricted`
 *                          for a BK
 *   command, command_len   the command, header included
 *   pin_key, pin_key_len   the lab key that the command's PIN block is under:
 *                          16 or 24 bytes
 *   pvk, pvk_len           the lab key that the validation data are enciphered
 *                          under: 16 or 24 bytes
 *   out, out_len           where the response goes: 65 bytes or more, whatever
 *                          the command and the length of the response
 *
 * The keys that stand in the command are judged as fields and otherwise not
 * looked at: the lab keys are used in their place. Nothing ties a lab key's
 * length to the letter in the command, or to the command: 24 bytes for a 'U',
 * 16 for a 'T' or an 'S', and one of either will do.
 *
 * Numbers, in the order of judging:
 *
 *   901   out_len is under 65
 *   902, 68, and 15, 26, 29, 23, 69, 25, 03 of the fields, of something left
 *         over and of ids that disagree: as qg_answer has them, with the same
 *         `place` and `field`
 *    15   pin_key_len is neither 16 nor 24, or pvk_len is neither. `place` is
 *         command_len, and `field` 0. Either key's length comes before both
 *         parities
 *    10   the PIN key has not odd parity
 *    11   the PVK has not odd parity
 *    20, 24, 20   the PIN block, deciphered: as qg_answer has them. Under
 *         another key than it was sealed with a block is nonsense, and 20 or 24
 *         is what one sees of that most often
 *    81, 86, 01, 00   as qg_answer has them
 *
 * What it writes is what qg_answer writes: nothing for 901 and 902, and for any
 * other number a response, of which `written` is the length. All later bytes of
 * out keep their values, those up to the sixty-fifth too. For 00, 01, 10, 11,
 * 20, 24, 68, 81, 86, 901 and 902 `place` and `field` are 0.
 */
qg_reply qg_lab_answer(qg_settings settings,
	const uint8_t *command, size_t command_len,
	const uint8_t *pin_key, size_t pin_key_len,
	const uint8_t *pvk, size_t pvk_len,
	uint8_t *out, size_t out_len);

#ifdef __cplusplus
}
#endif

#endif
