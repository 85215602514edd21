/*
 * Times triple DES and the whole answer of a class without a key box: ours beside
 * the reference's and beside OpenSSL's DES, in one run and with one loop.
 *
 *   lab_bench         ns, and how many times as long ours takes as each of the
 *                     others
 *   lab_bench ratio   the ratios alone, as under an emulator
 *
 * Its status is zero where all three answer alike and, where the times are native,
 * the goals are met: nothing takes longer than the reference's, and a triple DES
 * block at most twice as long as OpenSSL's.
 */
#include "lab_cores.h"
#include "race.h"

#include <stdbool.h>
#include <stdio.h>
#include <stdlib.h>
#include <string.h>

#define MOST_OF_REFERENCE 1.0
#define MOST_OF_OPENSSL 2.0

static const struct lab_key pin_key = { {
	0x01, 0x23, 0x45, 0x67, 0x89, 0xAB, 0xCD, 0xEF, 0xFE, 0xDC, 0xBA, 0x98, 0x76, 0x54, 0x32, 0x10,
}, 16 };
static const struct lab_key pvk = { {
	0x89, 0xAB, 0xCD, 0xEF, 0x01, 0x23, 0x45, 0x67, 0x76, 0x54, 0x32, 0x10, 0xFE, 0xDC, 0xBA, 0x98,
}, 16 };
static const struct lab_key three_keys = { {
	0x01, 0x23, 0x45, 0x67, 0x89, 0xAB, 0xCD, 0xEF, 0x80, 0x80, 0x80, 0x80, 0x80, 0x80, 0x80, 0x80,
	0xFE, 0xDC, 0xBA, 0x98, 0x76, 0x54, 0x32, 0x10,
}, 24 };

/* The lab header's exchange. */
#define SEALED "A6C27D9717227471"
#define KEYS "U00000000000000000000000000000000U00000000000000000000000000000000"
#define DATA SEALED "0104400000123456" "0123456789012345" "0123456789AN"

/* Something that each core does: a block under a key, or where there is none the
 * answer to a command. */
struct deed {
	const char *name;
	const struct lab_key *key;
	const char *command;
	const char *response;
};

static const struct deed deeds[] = {
	{ "triple DES block, two keys", &pin_key, NULL, NULL },
	{ "triple DES block, three keys", &three_keys, NULL, NULL },
	{ "lab answer, BK", NULL, "HDR1BK001" KEYS DATA, "HDR1BL002636FFFFFFFF" },
	{ "lab answer, DA verifies", NULL, "HDR1DA" KEYS "12" DATA "2636FFFFFFFF", "HDR1DB00" },
	{ "lab answer, DA does not verify", NULL, "HDR1DA" KEYS "12" DATA "2637FFFFFFFF", "HDR1DB01" },
};

#define DEEDS (sizeof deeds / sizeof deeds[0])

/* A deed and who does it. */
struct doer {
	enum lab_core core;
	const struct deed *deed;
};

/* Each block is the one before it enciphered, so that none can be left out. */
static void encipher_on(enum lab_core core, const struct lab_key *key, uint8_t *block, size_t goes)
{
	uint8_t made[BLOCK] = { 0 };

	for (size_t n = 0; n < goes; n++) {
		lab_encipher(core, key, block, made);
		memcpy(block, made, BLOCK);
	}
}

static void answer_on(enum lab_core core, const struct deed *deed, uint8_t *out, size_t goes)
{
	size_t len = strlen(deed->command);

	for (size_t n = 0; n < goes; n++)
		lab_answer(core, (const uint8_t *)deed->command, len, &pin_key, &pvk, out);
}

static void go(const void *with, size_t goes)
{
	static volatile uint8_t kept; /* so that nothing is left out as unused */
	const struct doer *doer = with;
	uint8_t out[ROOM] = { 0 };

	if (doer->deed->key != NULL)
		encipher_on(doer->core, doer->deed->key, out, goes);
	else
		answer_on(doer->core, doer->deed, out, goes);
	kept = out[0];
	(void)kept;
}

/* Whether all make the same of a thousand blocks. */
static bool enciphered_alike(const struct lab_key *key)
{
	uint8_t made[LAB_CORES][BLOCK] = { { 0 } };

	for (int core = 0; core < LAB_CORES; core++)
		encipher_on((enum lab_core)core, key, made[core], 1000);
	return memcmp(made[LAB_OURS], made[LAB_REFERENCE], BLOCK) == 0 &&
		memcmp(made[LAB_OURS], made[LAB_OPENSSL], BLOCK) == 0;
}

/* Whether all answer with the response, and nothing behind it. */
static bool answered_alike(const struct deed *deed)
{
	size_t len = strlen(deed->response);

	for (int core = 0; core < LAB_CORES; core++) {
		uint8_t out[ROOM] = { 0 }, expected[ROOM] = { 0 };
		qg_reply reply = lab_answer((enum lab_core)core, (const uint8_t *)deed->command,
			strlen(deed->command), &pin_key, &pvk, out);

		memcpy(expected, deed->response, len);
		if (reply.written != len || memcmp(out, expected, ROOM) != 0)
			return false;
	}
	return true;
}

static struct result raced(const struct deed *deed)
{
	struct doer doers[LAB_CORES];
	struct racer racers[LAB_CORES];

	for (int core = 0; core < LAB_CORES; core++) {
		doers[core] = (struct doer){ (enum lab_core)core, deed };
		racers[core] = (struct racer){ go, &doers[core] };
	}
	return race(racers, LAB_CORES);
}

static void show(const struct deed *deed, const struct result *found, bool shows_ns)
{
	printf("%-34s ", deed->name);
	for (int core = 0; shows_ns && core < LAB_CORES; core++)
		printf("%11.0f ", found->ns[core]);
	printf("%15.2f %13.2f\n", found->ratio[LAB_REFERENCE], found->ratio[LAB_OPENSSL]);
}

/* Only a block has a goal beside OpenSSL's: in an answer the reading, which is ours
 * in both, blurs the ratio. */
static bool meets_goals(const struct deed *deed, const struct result *found)
{
	return found->ratio[LAB_REFERENCE] <= MOST_OF_REFERENCE &&
		(deed->key == NULL || found->ratio[LAB_OPENSSL] <= MOST_OF_OPENSSL);
}

int main(int argc, char **argv)
{
	bool shows_ns = argc < 2 || strcmp(argv[1], "ratio") != 0, met = true;

	printf("%-34s %s of reference's  of OpenSSL's\n", "deed",
		shows_ns ? "    ours ns  reference's   OpenSSL's " : "");
	for (size_t i = 0; i < DEEDS; i++) {
		const struct deed *deed = &deeds[i];

		if (!(deed->key != NULL ? enciphered_alike(deed->key) : answered_alike(deed))) {
			printf("%s: not done alike, or not as meant\n", deed->name);
			return EXIT_FAILURE;
		}
		const struct result found = raced(deed);
		show(deed, &found, shows_ns);
		met = met && meets_goals(deed, &found);
	}
	printf("goals: at most %.1f of the reference's, and of a block at most %.1f of OpenSSL's: %s\n",
		MOST_OF_REFERENCE, MOST_OF_OPENSSL, met ? "met" : shows_ns ? "MISSED" : "not judged under an emulator");
	return met || !shows_ns ? EXIT_SUCCESS : EXIT_FAILURE;
}
