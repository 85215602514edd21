/*
 * Shows a command in rows, each behind the place of its first byte, with a line
 * of ^ under what a refusal points at. No row has more than 100 columns.
 */
#ifndef HOST_UNDERLINE_H
#define HOST_UNDERLINE_H

#include "fields.h"

/* The refusal tells a place. Where nothing stands there, at the command's end, one
 * ^ does. */
void underline_show(const struct fields_sent *sent, const qg_reply *refusal, int indent);

#endif
