/*
 * Colour for what a terminal shows. Where stdout is no terminal both are empty.
 */
#ifndef HOST_COLOUR_H
#define HOST_COLOUR_H

/* What stands before and behind words about a fault. */
const char *colour_fault(void);
const char *colour_plain(void);

#endif
