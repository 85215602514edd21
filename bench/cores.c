#include "cores.h"

#include <string.h>

/* The reference's calls, of the library that face/ makes. */
qg_reply reference_ask(qg_settings settings,
	const uint8_t *command, size_t command_len,
	uint8_t *out, size_t out_len);
qg_reply reference_answer(qg_settings settings,
	uint8_t pin_key_parity_good, uint8_t pvk_parity_good,
	const uint8_t *command, size_t command_len,
	const uint8_t *pin_block, size_t pin_block_len,
	const uint8_t *enciphered, size_t enciphered_len,
	uint8_t *out, size_t out_len);

static const struct {
	qg_reply (*ask)(qg_settings, const uint8_t *, size_t, uint8_t *, size_t);
	qg_reply (*answer)(qg_settings, uint8_t, uint8_t, const uint8_t *, size_t,
		const uint8_t *, size_t, const uint8_t *, size_t, uint8_t *, size_t);
} cores[CORES] = {
	[OURS] = { qg_ask, qg_answer },
	[REFERENCE] = { reference_ask, reference_answer },
};

static qg_settings settings;

void cores_begin(void)
{
	settings = qg_usual();
}

qg_reply make_call(enum core core, enum call call, const struct load *load,
	const struct command *command, uint8_t *out)
{
	if (call == ASK)
		return cores[core].ask(settings, command->bytes, command->len, out, ROOM);
	return cores[core].answer(settings, 1, 1, command->bytes, command->len,
		load->pin_block, 8, enciphered, 8, out, ROOM);
}

static bool is_meant(uint32_t number, uint32_t meant)
{
	return meant == REFUSED ? number != 0 : number == meant;
}

static bool same_reply(qg_reply one, qg_reply other)
{
	return one.number == other.number && one.written == other.written &&
		one.place == other.place && one.field == other.field;
}

bool answered_alike(enum call call, const struct load *load)
{
	const uint32_t meant = call == ASK ? load->asked : load->answered;

	for (size_t i = 0; i < load->count; i++) {
		uint8_t out[CORES][ROOM] = { { 0 } };
		const struct command *command = &load->commands[i];
		qg_reply ours = make_call(OURS, call, load, command, out[OURS]);
		qg_reply other = make_call(REFERENCE, call, load, command, out[REFERENCE]);

		if (!same_reply(ours, other) || !is_meant(ours.number, meant))
			return false;
		if (memcmp(out[OURS], out[REFERENCE], ROOM) != 0)
			return false;
	}
	return true;
}
