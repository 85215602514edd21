/*
 * The lines of a script for a class without a key box. Each takes what stands
 * behind the line's word, and answers what is wrong with it, or NULL.
 */
#ifndef HOST_SCRIPT_LAB_H
#define HOST_SCRIPT_LAB_H

#include "script.h"

const char *script_take_pinkey(struct script *script, const char *rest);
const char *script_take_pvk(struct script *script, const char *rest);
const char *script_take_keybox(struct script *script, const char *rest);
const char *script_take_seal(struct script *script, const char *rest);
const char *script_take_sealed(struct script *script, const char *rest);

#endif
