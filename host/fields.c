#include "fields.h"

#include <string.h>

#define BLOCK 8

/* The longest command that has a frame. */
#define LONGEST 4096

/* The numbers of a field that is short: a field that is wrong may have them too. */
#define SHORT 15
#define SHORT_LIST 3

static qg_reply ask(const struct fields_sent *sent, const uint8_t *bytes, size_t len)
{
	uint8_t out[BLOCK];

	return qg_ask(sent->settings, bytes, len, out, sizeof out);
}

/* Asks about the first n bytes and one byte 00. */
static qg_reply probe(const struct fields_sent *sent, size_t n)
{
	uint8_t bytes[LONGEST + 1];

	if (n > LONGEST)
		return ask(sent, sent->at, sent->len);
	memcpy(bytes, sent->at, n);
	bytes[n] = 0;
	return ask(sent, bytes, n + 1);
}

static bool same_place(const qg_reply *a, const qg_reply *b)
{
	return a->place == b->place && a->field == b->field;
}

/* Asks to which field the byte at n belongs. Where a byte 00 there is left over,
 * it may still be the mark of an optional field, which begins with it then. */
static qg_reply field_at(const struct fields_sent *sent, size_t n)
{
	qg_reply reply = probe(sent, n);

	return reply.field == 0 && reply.place == n ? probe(sent, n + 1) : reply;
}

void fields_walk(const struct fields_sent *sent, struct fields *fields)
{
	size_t n = sent->settings.header + FIELDS_CODE;

	fields->len = 0;
	for (; n < sent->len; n++) {
		qg_reply reply = field_at(sent, n);
		struct fields_one *last = &fields->at[fields->len];

		if (reply.field == 0)
			break;
		if (fields->len > 0 && last[-1].number == reply.field) {
			last[-1].len++;
			continue;
		}
		if (fields->len == FIELDS_MOST || reply.place != n)
			break;
		*last = (struct fields_one){ reply.field, n, 1 };
		fields->len++;
	}
	fields->end = n;
}

const struct fields_one *fields_find(const struct fields *fields, uint32_t number)
{
	for (size_t i = 0; i < fields->len; i++)
		if (fields->at[i].number == number)
			return &fields->at[i];
	return NULL;
}

/*
 * Texts to put in the place of a field that is refused. Whether one will do the
 * box says; zeros follow each of them.
 */
static const char *const offers[] = {
	"", "FFFFFFFFFFFF", "U", "S00016P0TN00N0000", "S00016V1TN00N0000", "01", "04", "12",
	"00000000000N", ";0104",
};

/* Puts an offer behind the first n bytes, but for as much of it as the command
 * has of its own from the place on. */
static void put_offer(const struct fields_sent *sent, size_t place, size_t n, const char *offer,
	uint8_t bytes[LONGEST])
{
	size_t own = n - place, len = strlen(offer);
	size_t put = own < len ? len - own : 0;

	memset(bytes, '0', LONGEST);
	memcpy(bytes, sent->at, n);
	if (put > LONGEST - n)
		put = LONGEST - n;
	if (put > 0)
		memcpy(bytes + n, offer + own, put);
}

/* Mends the field that is refused: leaves it as many of its own characters as
 * can be, and goes on with an offer that the box takes. Answers where the offer
 * begins, or the command's length where there is no mending it. */
static size_t mend(const struct fields_sent *sent, const qg_reply *refusal, uint8_t bytes[LONGEST])
{
	for (size_t n = sent->len + 1; n-- > refusal->place;)
		for (size_t i = 0; i < sizeof offers / sizeof offers[0]; i++) {
			put_offer(sent, refusal->place, n, offers[i], bytes);
			qg_reply reply = ask(sent, bytes, LONGEST);

			if (!same_place(&reply, refusal))
				return n;
		}
	return sent->len;
}

/* Where the field that begins at the refusal's place ends, in a command where it
 * is in order. */
static size_t end_of_field(const struct fields_sent *sent, const qg_reply *refusal)
{
	size_t n = refusal->place + 1;

	while (n < sent->len) {
		qg_reply reply = probe(sent, n);

		if (!same_place(&reply, refusal))
			break;
		n++;
	}
	return n;
}

/* Where that ends which is wrong, by the mended command, or else the command. It
 * begins where the mending does, and goes on as far as a byte 00 is refused with
 * the same number: a part of the field with a number of its own was not judged. */
static size_t mended_end(const struct fields_sent *sent, const qg_reply *refusal)
{
	uint8_t bytes[LONGEST];
	struct fields_sent mended = { sent->settings, bytes, LONGEST, sent->has_lab_keys };
	size_t n = mend(sent, refusal, bytes);

	while (n < sent->len) {
		qg_reply reply = probe(&mended, n);

		if (reply.number != refusal->number || !same_place(&reply, refusal))
			break;
		n++;
	}
	return n;
}

/* The shortest beginning of the command that is refused in the same way: the
 * box had no need to look further. */
static size_t looked_at(const struct fields_sent *sent, const qg_reply *refusal)
{
	for (size_t n = refusal->place; n < sent->len; n++) {
		qg_reply reply = ask(sent, sent->at, n);

		if (reply.number == refusal->number && same_place(&reply, refusal))
			return n;
	}
	return sent->len;
}

bool fields_is_placed(const struct fields_sent *sent, const qg_reply *reply)
{
	return (reply->place != 0 || reply->field != 0) &&
		reply->place <= sent->len && sent->len <= LONGEST;
}

bool fields_letter_is_taken(const struct fields_sent *sent, const qg_reply *refusal)
{
	return refusal->place < sent->len && ask(sent, sent->at, refusal->place + 1).number == SHORT;
}

bool fields_disagree(const struct fields_sent *sent, const qg_reply *refusal)
{
	/* in a command of the greatest length something is left over, and that decides */
	if (refusal->field == 0 || sent->len >= LONGEST)
		return false;
	qg_reply reply = probe(sent, sent->len);
	return !same_place(&reply, refusal);
}

size_t fields_fault_end(const struct fields_sent *sent, const qg_reply *refusal)
{
	/* what is left over goes on to the end; a slice that is not 8 bytes points there */
	if (refusal->field == 0)
		return sent->len;
	if (fields_disagree(sent, refusal))
		return end_of_field(sent, refusal);
	if (refusal->number != SHORT && refusal->number != SHORT_LIST)
		return looked_at(sent, refusal);
	return mended_end(sent, refusal);
}
