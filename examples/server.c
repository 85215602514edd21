/* A server: commands on stdin, responses on stdout, each behind its length in two bytes, the high
 * one first. */
#include <stdio.h>
#include "quillgimlet.h"

struct made { uint8_t pin_key_good, pvk_good, pin_block[8], enciphered[8]; };

/* STANDS IN FOR THE KEY BOX. A real one takes the keys out of the command, judges their parities,
 * deciphers `sealed` and enciphers `asked`. This one has fixed answers. */
static struct made key_box(const uint8_t *command, size_t len, const uint8_t *sealed, const uint8_t *asked)
{
	(void)command, (void)len, (void)sealed, (void)asked;
	return (struct made){ 1, 1, { 0x05, 0x34, 0x16, 0x7F, 0xFF, 0xED, 0xCB, 0xA9 },
		{ 0x9F, 0x3C, 0x0A, 0x71, 0x00, 0x00, 0x00, 0x00 } };
}

int main(void)
{
	static uint8_t length[2], command[65535], asked[8], sealed[16], response[65];
	size_t got;

	while ((got = fread(length, 1, 2, stdin)) == 2) {
		size_t len = (size_t)length[0] << 8 | length[1];
		struct made made = { 0 };
		if (fread(command, 1, len, stdin) != len)
			return 1;
		/* what these refuse qg_answer refuses alike, and looks at nothing that the box made */
		if (qg_ask(qg_usual(), command, len, asked, sizeof asked).number == 0 &&
			qg_pin_block(qg_usual(), command, len, sealed, sizeof sealed).number == 0)
			made = key_box(command, len, sealed, asked);
		qg_reply reply = qg_answer(qg_usual(), made.pin_key_good, made.pvk_good, command, len,
			made.pin_block, 8, made.enciphered, 8, response, sizeof response);
		if (reply.written == 0) /* 902, no frame: the host hears nothing */
			continue;
		printf("%c%c", (int)(reply.written >> 8), (int)(reply.written & 0xFF));
		if (fwrite(response, 1, reply.written, stdout) != reply.written || fflush(stdout) != 0)
			return 1;
	}
	return got != 0 || ferror(stdin);
}
