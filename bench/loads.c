#include "loads.h"

#include <stdio.h>
#include <string.h>

/* The paper's exchange. */
static const char demonstration[] =
	"HDR1BK001U00000000000000000000000000000000U00000000000000000000000000000000"
	"00000000000000000104400000123456"
	"01234567890123450123456789AN";

#define DEMONSTRATION_LEN (sizeof demonstration - 1)

/* The offset that it makes, presented. */
static const char presentation[] =
	"HDR1DAU00000000000000000000000000000000U00000000000000000000000000000000"
	"1200000000000000000104400000123456"
	"01234567890123450123456789AN"
	"9247FFFFFFFF";

/* "length 16 to 512": a key block's, without the letter before it */
#define SHORTEST_BLOCK 16u
#define LONGEST_BLOCK 512u

/* Count and length of the longest weak list, and the longest trailer. */
#define MOST_WEAK 99u
#define WEAK_LEN 12u
#define LONGEST_TRAILER 32u

const uint8_t enciphered[8] = { 0x9F, 0x3C, 0x0A, 0x71, 0, 0, 0, 0 };

/* PIN 34567, the wrong PIN 34568, and PIN 123456789012, which is as long as the
 * weak PINs; all of format 01 under account 400000123456. */
static const uint8_t short_pin[8] = { 0x05, 0x34, 0x16, 0x7F, 0xFF, 0xED, 0xCB, 0xA9 };
static const uint8_t wrong_pin[8] = { 0x05, 0x34, 0x16, 0x8F, 0xFF, 0xED, 0xCB, 0xA9 };
static const uint8_t long_pin[8] = { 0x0C, 0x12, 0x74, 0x56, 0x78, 0x82, 0x26, 0xA9 };

static struct command one, presented, full[2], cut[DEMONSTRATION_LEN], changed[DEMONSTRATION_LEN], grown[GROWTH];

struct load loads[LOADS] = {
	{ "demonstration command", &one, 1, short_pin, 0, 0 },
	{ "DA, the PIN verifies", &presented, 1, short_pin, 0, 0 },
	{ "DA, the PIN does not verify", &presented, 1, wrong_pin, 0, 1 },
	{ "key blocks, 99 weak PINs, trailer", &full[0], 1, long_pin, 0, 0 },
	{ "the same, weak PINs near the PIN", &full[1], 1, long_pin, 0, 0 },
	{ "demonstration, cut at each place", cut, DEMONSTRATION_LEN, short_pin, REFUSED, REFUSED },
	{ "demonstration, each byte changed", changed, DEMONSTRATION_LEN, short_pin, REFUSED, REFUSED },
};

struct load growth[GROWTH];

static void put(struct command *to, const char *text)
{
	size_t len = strlen(text);

	memcpy(to->bytes + to->len, text, len);
	to->len += len;
}

static void put_many(struct command *to, size_t count, char character)
{
	memset(to->bytes + to->len, character, count);
	to->len += count;
}

/* S and a key block of a length, which names usage and mode, and LMK id 00. */
static void put_key_block(struct command *to, size_t len, const char *usage, char mode)
{
	char head[32];

	snprintf(head, sizeof head, "S0%04zu%sT%c00E0000", len, usage, mode);
	put(to, head);
	put_many(to, len - SHORTEST_BLOCK, 'x');
}

/* Weak PINs that part from the PIN at a place: all digits before it are the PIN's. */
static void put_weak(struct command *to, size_t count, size_t alike)
{
	char pin[16];

	put(to, ";");
	snprintf(pin, sizeof pin, "%02zu%02u", count, WEAK_LEN);
	put(to, pin);
	for (size_t i = 0; i < count; i++) {
		snprintf(pin, sizeof pin, "123456789012");
		pin[alike] = (char)('0' + (pin[alike] - '0' + 1 + (int)(i % 9)) % 10);
		put(to, pin);
	}
}

static size_t at_most(size_t high, size_t n)
{
	return n < high ? n : high;
}

/* What is behind the key blocks of a long command, up to its optional fields. */
static const char opening[] = "HDR1BKFFF";
static const char middle[] =
	"0000000000000000" "01" "12" "400000123456" "0123456789012345" "P0123456789ABCDEF";
static const char lmk_id[] = "%00";

#define LEAST (sizeof opening - 1 + 2 * (1 + SHORTEST_BLOCK) + sizeof middle - 1)
#define WEAK_HEAD 5u /* mark, count and length */
#define ENDING (sizeof lmk_id - 1 + 1 + LONGEST_TRAILER)

/* Every field as long as it can be, under a header of four characters. */
#define FULL (LEAST + 2 * (LONGEST_BLOCK - SHORTEST_BLOCK) + WEAK_HEAD + MOST_WEAK * WEAK_LEN + ENDING)

/* A command of a length, LEAST or more: two key blocks take what they can, then
 * a weak list, then LMK id and trailer; what is left over is behind these. */
static void make_long(struct command *to, size_t len, size_t alike)
{
	const size_t more = LONGEST_BLOCK - SHORTEST_BLOCK;
	size_t rest = len - LEAST;
	size_t first = at_most(more, rest), second = at_most(more, rest - first);

	to->len = 0;
	put(to, opening);
	put_key_block(to, SHORTEST_BLOCK + first, "P0", 'N');
	put_key_block(to, SHORTEST_BLOCK + second, "V1", 'N');
	put(to, middle);
	if (len - to->len > ENDING + WEAK_HEAD)
		put_weak(to, at_most(MOST_WEAK, (len - to->len - WEAK_HEAD - sizeof lmk_id) / WEAK_LEN), alike);
	if (len - to->len > sizeof lmk_id)
		put(to, lmk_id);
	if (len > to->len) {
		put_many(to, 1, 0x19);
		put_many(to, len - to->len, 't');
	}
}

static void make_damaged(void)
{
	for (size_t i = 0; i < DEMONSTRATION_LEN; i++) {
		cut[i] = one;
		cut[i].len = i;
		changed[i] = one;
		changed[i].bytes[i] = 0x7F;
	}
}

/* One that is taken has at most FULL bytes; a longer one has bytes left over. */
static void make_growth(void)
{
	static const size_t lengths[GROWTH] = { 200, 400, 800, 1600, FULL, 3200, LONGEST_COMMAND };

	for (size_t i = 0; i < GROWTH; i++) {
		struct load *load = &growth[i];
		const bool taken = lengths[i] <= FULL;

		make_long(&grown[i], lengths[i], 0);
		load->commands = &grown[i];
		load->count = 1;
		load->pin_block = long_pin;
		load->asked = load->answered = taken ? 0 : REFUSED;
		snprintf(load->name, sizeof load->name, "%zu bytes%s", lengths[i],
			taken ? "" : ", some left over");
	}
}

void loads_make(void)
{
	put(&one, demonstration);
	put(&presented, presentation);
	make_damaged();
	make_long(&full[0], FULL, 0);
	make_long(&full[1], FULL, WEAK_LEN - 1);
	make_growth();
}
