/*
 * The lab keys of a script at work: what a key box that held them would answer,
 * and PINs that are sealed under the PIN key. All of it is asked of the archive.
 */
#ifndef HOST_LAB_KEYS_H
#define HOST_LAB_KEYS_H

#include "script.h"

/* Puts into the exchange what a key box with its lab keys would answer: both
 * blocks and the parities. Of a command that is refused, and under a key of a
 * length that no lab key has, a block is empty. */
void lab_keys_make(struct script_exchange *e);

/* Prints the lab keys, each with its check value and its parity, in lines that
 * stand so far from the left. */
void lab_keys_show(const struct script_exchange *e, int indent);

/* Seals the PIN of the script's last seal line and prints it. True where it went
 * as its sealed line expects. */
bool lab_keys_seal(const struct script_exchange *e);

/* Prints what sealing it did in the form of the script's line. */
void lab_keys_write_sealed(const struct script_exchange *e);

#endif
