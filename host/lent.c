#define _DEFAULT_SOURCE /* MAP_ANONYMOUS */
#include "lent.h"

#include <string.h>
#include <sys/mman.h>

/*
 * A room and a guard are 64 KiB each and lie on 64 KiB boundaries. That is the
 * largest page of the machines this runs on: under an emulator a guard holds
 * only where it is made of whole pages of the machine below.
 */
#define SPAN 65536u

/* How much of the pattern beside a run is looked at: an x86-64 page. */
#define MARGIN 4096u

_Static_assert(LENT_MOST + MARGIN <= SPAN, "a run and its margin fit a room");

/* The pattern's byte at a place. It changes from byte to byte and from one row
 * of 256 to the next, so that neither a constant nor a shifted copy passes. */
static uint8_t pattern_at(size_t place)
{
	return (uint8_t)(place * 37u + (place >> 8) * 11u + 90u);
}

/* The whole pattern, to compare with in one go. */
static const uint8_t *pattern(void)
{
	static uint8_t bytes[SPAN];
	static bool made;

	if (!made) {
		for (size_t i = 0; i < SPAN; i++)
			bytes[i] = pattern_at(i);
		made = true;
	}
	return bytes;
}

static size_t place_of(enum lent_side side, size_t len)
{
	return side == LENT_BEFORE_GUARD ? SPAN - len : 0;
}

bool lent_open(struct lent_room *room)
{
	/* guard, room, guard, and what the alignment may take */
	uint8_t *all = mmap(NULL, 4 * (size_t)SPAN, PROT_NONE,
		MAP_PRIVATE | MAP_ANONYMOUS, -1, 0);

	if (all == MAP_FAILED)
		return false;
	size_t past = (uintptr_t)all % SPAN;
	room->start = all + (past == 0 ? 0 : SPAN - past) + SPAN;
	if (mprotect(room->start, SPAN, PROT_READ | PROT_WRITE) != 0)
		return false;
	lent_renew(room);
	return true;
}

uint8_t *lent_place(const struct lent_room *room, enum lent_side side,
	const uint8_t *bytes, size_t len)
{
	uint8_t *at = room->start + place_of(side, len);

	if (len > 0)
		memcpy(at, bytes, len);
	return at;
}

bool lent_margin_kept(const struct lent_room *room, enum lent_side side,
	size_t len)
{
	size_t from = side == LENT_BEFORE_GUARD ? SPAN - len - MARGIN : len;

	return memcmp(room->start + from, pattern() + from, MARGIN) == 0;
}

void lent_take_back(const struct lent_room *room, enum lent_side side,
	size_t len)
{
	size_t at = place_of(side, len);

	memcpy(room->start + at, pattern() + at, len);
}

void lent_renew(const struct lent_room *room)
{
	memcpy(room->start, pattern(), SPAN);
}

bool lent_holds(const struct lent_room *room, const void *address)
{
	uintptr_t at = (uintptr_t)address, start = (uintptr_t)room->start;

	return at >= start - SPAN && at < start + 2 * (uintptr_t)SPAN;
}
