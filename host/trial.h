/*
 * A trial: one case, once, with every run against a guard on one side. It
 * answers what harm was seen first.
 */
#ifndef HOST_TRIAL_H
#define HOST_TRIAL_H

#include "calls.h"
#include "lent.h"

enum harm {
	HARM_NONE,
	HARM_STOPPED,  /* the call was stopped by a signal */
	HARM_INPUT,    /* an input run is not as it was */
	HARM_MARGIN,   /* a byte beside a run was written */
	HARM_NUMBER,   /* another number than expected */
	HARM_WRITTEN,  /* another count of what is written */
	HARM_OUTPUT,   /* a byte of the lent output is not the expected one */
	HARM_PLACE,    /* another place in the command than expected */
	HARM_FIELD,    /* another field of it */
};

struct trial {
	enum harm harm;
	const char *what;  /* what the harm was done to, in a word or two */
	int signal;        /* of HARM_STOPPED */
	qg_reply reply;    /* of every other */
	uint8_t out[LENT_MOST];  /* the output as the call left it, where harm was seen */
};

/* Maps the rooms and has a stopped call reported. Once, before any trial. */
bool trial_open(void);

/* Tries a case that fits its call. True where no harm was seen. */
bool trial_run(const struct call *call, const struct call_case *one,
	enum lent_side side, struct trial *trial);

#endif
