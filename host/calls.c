#include "calls.h"

#include "quillgimlet_lab.h"

/* The archive is built for this layout: one eightbyte, then the two flags. */
_Static_assert(sizeof(qg_settings) == 16, "settings cross as 16 bytes");
_Static_assert(sizeof(qg_reply) == 16, "a reply crosses as 16 bytes");

/* A run as the C face takes it. */
#define RUN(run) (run).at, (run).len

/* A settings struct stands flattened at the front of the numbers. */
#define SETTINGS_NUMBERS 3

static qg_settings settings_of(const uint64_t *numbers)
{
	qg_settings settings = {
		.header = (size_t)numbers[0],
		.restricted = (uint8_t)numbers[1],
		.variable = (uint8_t)numbers[2],
	};

	return settings;
}

static qg_reply make_read_block(const struct call_args *args)
{
	return qg_read_block((uint32_t)args->numbers[0], RUN(args->runs[0]),
		RUN(args->runs[1]), RUN(args->out));
}

static qg_reply make_write_block(const struct call_args *args)
{
	return qg_write_block((uint32_t)args->numbers[0], RUN(args->runs[0]),
		RUN(args->runs[1]), RUN(args->runs[2]), RUN(args->out));
}

static qg_reply make_translate(const struct call_args *args)
{
	const uint64_t *formats = args->numbers + SETTINGS_NUMBERS;

	return qg_translate(settings_of(args->numbers), (uint32_t)formats[0],
		(uint32_t)formats[1], RUN(args->runs[0]), RUN(args->runs[1]),
		RUN(args->runs[2]), RUN(args->out));
}

static qg_reply make_validation_block(const struct call_args *args)
{
	return qg_validation_block(RUN(args->runs[0]), RUN(args->runs[1]),
		RUN(args->out));
}

static qg_reply make_natural_pin(const struct call_args *args)
{
	return qg_natural_pin((uint32_t)args->numbers[0], RUN(args->runs[0]),
		RUN(args->runs[1]), RUN(args->out));
}

static qg_reply make_offset(const struct call_args *args)
{
	const uint64_t *rest = args->numbers + SETTINGS_NUMBERS;

	return qg_offset(settings_of(args->numbers), (uint32_t)rest[0],
		(uint32_t)rest[1], RUN(args->runs[0]), RUN(args->runs[1]),
		RUN(args->runs[2]), RUN(args->runs[3]), RUN(args->out));
}

static qg_reply make_offset_of_digits(const struct call_args *args)
{
	const uint64_t *rest = args->numbers + SETTINGS_NUMBERS;

	return qg_offset_of_digits(settings_of(args->numbers), (uint32_t)rest[0],
		RUN(args->runs[0]), RUN(args->runs[1]), RUN(args->out));
}

/* Its output is signed bytes; a case holds them as the bytes they are. */
static qg_reply make_differences(const struct call_args *args)
{
	const uint64_t *rest = args->numbers + SETTINGS_NUMBERS;

	return qg_differences(settings_of(args->numbers), (uint32_t)rest[0],
		RUN(args->runs[0]), RUN(args->runs[1]),
		(int8_t *)args->out.at, args->out.len);
}

static qg_reply make_offset_verdict(const struct call_args *args)
{
	const uint64_t *rest = args->numbers + SETTINGS_NUMBERS;

	return qg_offset_verdict(settings_of(args->numbers), (uint32_t)rest[0],
		(uint32_t)rest[1], RUN(args->runs[0]), RUN(args->runs[1]),
		RUN(args->runs[2]), RUN(args->runs[3]), RUN(args->runs[4]));
}

static qg_reply make_pvv_input(const struct call_args *args)
{
	return qg_pvv_input((uint32_t)args->numbers[0], (uint32_t)args->numbers[1],
		RUN(args->runs[0]), RUN(args->runs[1]), RUN(args->out));
}

static qg_reply make_pvv(const struct call_args *args)
{
	return qg_pvv(RUN(args->runs[0]), RUN(args->out));
}

static qg_reply make_pvv_verdict(const struct call_args *args)
{
	return qg_pvv_verdict((uint32_t)args->numbers[0],
		(uint32_t)args->numbers[1], RUN(args->runs[0]), RUN(args->runs[1]),
		RUN(args->runs[2]), RUN(args->runs[3]));
}

static qg_reply make_ask(const struct call_args *args)
{
	return qg_ask(settings_of(args->numbers), RUN(args->runs[0]), RUN(args->out));
}

static qg_reply make_answer(const struct call_args *args)
{
	const uint64_t *parities = args->numbers + SETTINGS_NUMBERS;

	return qg_answer(settings_of(args->numbers), (uint8_t)parities[0],
		(uint8_t)parities[1], RUN(args->runs[0]), RUN(args->runs[1]),
		RUN(args->runs[2]), RUN(args->out));
}

static qg_reply make_pin_block(const struct call_args *args)
{
	return qg_pin_block(settings_of(args->numbers), RUN(args->runs[0]), RUN(args->out));
}

static qg_reply make_des_encipher(const struct call_args *args)
{
	return qg_des_encipher(RUN(args->runs[0]), RUN(args->runs[1]), RUN(args->out));
}

static qg_reply make_des_decipher(const struct call_args *args)
{
	return qg_des_decipher(RUN(args->runs[0]), RUN(args->runs[1]), RUN(args->out));
}

static qg_reply make_tdes_encipher(const struct call_args *args)
{
	return qg_tdes_encipher(RUN(args->runs[0]), RUN(args->runs[1]), RUN(args->out));
}

static qg_reply make_tdes_decipher(const struct call_args *args)
{
	return qg_tdes_decipher(RUN(args->runs[0]), RUN(args->runs[1]), RUN(args->out));
}

static qg_reply make_key_check(const struct call_args *args)
{
	return qg_key_check(RUN(args->runs[0]), RUN(args->out));
}

/* It hands back a byte and no reply: one is made here, with that as its number. */
static qg_reply make_odd_parity(const struct call_args *args)
{
	qg_reply reply = { .number = qg_odd_parity(RUN(args->runs[0])) };

	return reply;
}

static qg_reply make_lab_answer(const struct call_args *args)
{
	return qg_lab_answer(settings_of(args->numbers), RUN(args->runs[0]),
		RUN(args->runs[1]), RUN(args->runs[2]), RUN(args->out));
}

/* It takes nothing and gives settings: a case's numbers are those that it must
 * give, and a reply is made here, 00 where it gives them and 01 where not. */
static qg_reply make_usual(const struct call_args *args)
{
	qg_settings expected = settings_of(args->numbers), got = qg_usual();
	bool same = got.header == expected.header &&
		got.restricted == expected.restricted && got.variable == expected.variable;
	qg_reply reply = { .number = same ? 0 : 1 };

	return reply;
}

#define SETTINGS { "header", 8 }, { "restricted", 1 }, { "variable", 1 }

const struct call calls[] = {
	{ 1, "read_block", { { "format", 4 } },
		{ "block", "account" }, true, make_read_block },
	{ 2, "write_block", { { "format", 4 } },
		{ "pin", "account", "fill" }, true, make_write_block },
	{ 3, "translate", { SETTINGS, { "from", 4 }, { "to", 4 } },
		{ "block", "account", "fill" }, true, make_translate },
	{ 4, "validation_block", { { NULL, 0 } },
		{ "validation", "account" }, true, make_validation_block },
	{ 5, "natural_pin", { { "length", 4 } },
		{ "table", "enciphered" }, true, make_natural_pin },
	{ 6, "offset", { SETTINGS, { "format", 4 }, { "check", 4 } },
		{ "block", "account", "table", "enciphered" }, true, make_offset },
	{ 7, "offset_of_digits", { SETTINGS, { "check", 4 } },
		{ "pin", "natural" }, true, make_offset_of_digits },
	{ 8, "differences", { SETTINGS, { "check", 4 } },
		{ "pin", "natural" }, true, make_differences },
	{ 9, "offset_verdict", { SETTINGS, { "format", 4 }, { "check", 4 } },
		{ "block", "account", "table", "enciphered", "offset" }, false,
		make_offset_verdict },
	{ 10, "pvv_input", { { "format", 4 }, { "index", 4 } },
		{ "block", "account" }, true, make_pvv_input },
	{ 11, "pvv", { { NULL, 0 } },
		{ "enciphered" }, true, make_pvv },
	{ 12, "pvv_verdict", { { "format", 4 }, { "index", 4 } },
		{ "block", "account", "enciphered", "pvv" }, false,
		make_pvv_verdict },
	{ 13, "ask", { SETTINGS },
		{ "command" }, true, make_ask },
	{ 14, "answer", { SETTINGS, { "pin_key_parity_good", 1 },
		{ "pvk_parity_good", 1 } },
		{ "command", "pin_block", "enciphered" }, true, make_answer },
	{ 15, "usual", { SETTINGS },
		{ NULL }, false, make_usual },
	{ 16, "des_encipher", { { NULL, 0 } },
		{ "key", "block" }, true, make_des_encipher },
	{ 17, "des_decipher", { { NULL, 0 } },
		{ "key", "block" }, true, make_des_decipher },
	{ 18, "tdes_encipher", { { NULL, 0 } },
		{ "key", "block" }, true, make_tdes_encipher },
	{ 19, "tdes_decipher", { { NULL, 0 } },
		{ "key", "block" }, true, make_tdes_decipher },
	{ 20, "key_check", { { NULL, 0 } },
		{ "key" }, true, make_key_check },
	{ 21, "odd_parity", { { NULL, 0 } },
		{ "key" }, false, make_odd_parity },
	{ 22, "lab_answer", { SETTINGS },
		{ "command", "pin_key", "pvk" }, true, make_lab_answer },
	{ 23, "pin_block", { SETTINGS },
		{ "command" }, true, make_pin_block },
};

const size_t calls_len = sizeof calls / sizeof calls[0];

const struct call *call_of(uint8_t code)
{
	for (size_t i = 0; i < calls_len; i++)
		if (calls[i].code == code)
			return &calls[i];
	return NULL;
}

static size_t call_numbers(const struct call *call)
{
	size_t n = 0;

	while (n < CASE_NUMBERS && call->numbers[n].name != NULL)
		n++;
	return n;
}

size_t call_runs(const struct call *call)
{
	size_t n = 0;

	while (n < CASE_RUNS && call->runs[n] != NULL)
		n++;
	return n;
}

/* Whether a parameter of so many bytes can carry the value. */
static bool carries(uint8_t bytes, uint64_t value)
{
	return bytes == 8 || value >> (8 * bytes) == 0;
}

bool call_fits(const struct call *call, const struct call_case *one)
{
	if (one->numbers_len != call_numbers(call) ||
		one->runs_len != call_runs(call) || one->has_out != call->has_out)
		return false;
	for (size_t i = 0; i < one->numbers_len; i++)
		if (!carries(call->numbers[i].bytes, one->numbers[i]))
			return false;
	return true;
}
