/*
 * The two lines of a script that say what is expected of the calls, and what
 * lines have in common. Each takes what stands behind the line's word, and
 * answers what is wrong with it, or NULL.
 */
#ifndef HOST_SCRIPT_EXPECTED_H
#define HOST_SCRIPT_EXPECTED_H

#include "script.h"

const char *script_take_asks(struct script *script, const char *rest);
const char *script_take_answers(struct script *script, const char *rest);

/* Bytes in hex. */
const char *script_take_slice(const char *rest, struct script_slice *slice);

/* Whether an expectation is open, and what is wrong with that. */
bool script_is_open(const char *rest);
const char *script_take_open(const struct script *script);

#endif
