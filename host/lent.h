/*
 * Rooms for the runs that a call is lent. A room lies between two guards that
 * no program may touch, and a run lies hard against one of them, so that a
 * byte read or written on that side of the run stops the program. On the run's
 * other side stands a known pattern, so that a byte written there is seen.
 */
#ifndef HOST_LENT_H
#define HOST_LENT_H

#include <stdbool.h>
#include <stddef.h>
#include <stdint.h>

/* The longest run that a room can lend. */
#define LENT_MOST 32768u

enum lent_side { LENT_BEFORE_GUARD, LENT_BEHIND_GUARD };

struct lent_room {
	uint8_t *start;
};

/* Maps a room. It is mapped once and serves every case. */
bool lent_open(struct lent_room *room);

/* Copies a run of at most LENT_MOST bytes into the room and says where it lies. */
uint8_t *lent_place(const struct lent_room *room, enum lent_side side,
	const uint8_t *bytes, size_t len);

/* Whether the pattern on the open side of a run of this length is whole. */
bool lent_margin_kept(const struct lent_room *room, enum lent_side side,
	size_t len);

/* Takes a run back: the pattern stands again where it lay. */
void lent_take_back(const struct lent_room *room, enum lent_side side,
	size_t len);

/* Lays the pattern out anew over the whole room, after a call that did harm. */
void lent_renew(const struct lent_room *room);

/* Whether an address lies in the room or in one of its guards. */
bool lent_holds(const struct lent_room *room, const void *address);

#endif
