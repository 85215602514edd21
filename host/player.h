/*
 * The player of an exchange: makes its calls, tells what came of them, and
 * holds it to what the script expects.
 */
#ifndef HOST_PLAYER_H
#define HOST_PLAYER_H

#include "script.h"

/* Makes both calls and prints the exchange. True where it went as expected. */
bool player_play(const struct script_exchange *e);

/* Print of an exchange, in the same words for all that show one, the settings,
 * without an end of line, and the key box's answers, behind the lab keys where it
 * has them, in lines that stand so far from the left. */
void player_show_settings(const struct script_exchange *e);
void player_show_key_box(const struct script_exchange *e, int indent);

/* Print what a call did in the form of the script's lines, so that it can be
 * expected. */
void player_write_asked(const struct script_exchange *e);
void player_write_answered(const struct script_exchange *e);

#endif
