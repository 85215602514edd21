#include "meanings.h"

#include <stddef.h>

struct meaning {
	uint32_t number;
	const char *words;
};

static const struct meaning meanings[] = {
	{ 0, "done" },
	{ 1, "verdict: the PIN does not verify" },
	{ 3, "weak PIN count not two digits, or its list short of digits" },
	{ 10, "parity of the PIN key" },
	{ 11, "parity of the PVK" },
	{ 15, "a field short, of a wrong alphabet or outside its range, or anything left over" },
	{ 20, "control, digit or fill wrong in the PIN block" },
	{ 23, "unknown format code" },
	{ 24, "PIN length outside 4 to 12" },
	{ 25, "decimalisation table holds a non-digit" },
	{ 26, "key scheme letter, key block version or key block length wrong" },
	{ 29, "key usage, algorithm or mode not permitted" },
	{ 68, "command code other than BK, DA and EA" },
	{ 69, "format known but not built, or not allowed here" },
	{ 81, "check length longer than the PIN, or offset of another length" },
	{ 86, "PIN is on the weak list" },
	{ 901, "lent output too short" },
	{ 902, "no frame: header setting, command length or a header byte" },
};

const char *meaning_of(uint32_t number)
{
	for (size_t i = 0; i < sizeof meanings / sizeof meanings[0]; i++)
		if (meanings[i].number == number)
			return meanings[i].words;
	return NULL;
}

const char *meaning_in_words(uint32_t number)
{
	const char *words = meaning_of(number);

	return words != NULL ? words : "not a number of the paper";
}
