/* A server without a key box: commands on stdin, responses on stdout, each behind its length in two
 * bytes, the high one first. Its words are two lab keys in hex, for anyone to see: PIN key and PVK. */
#include <stdio.h>
#include <string.h>
#include "quillgimlet_lab.h"

struct key { uint8_t at[32]; size_t len; };

/* Which lengths a lab key has is not asked here: qg_lab_answer answers any other with 15. */
static int read_key(const char *hex, struct key *key)
{
	key->len = strlen(hex) / 2;
	if (key->len > sizeof key->at || strspn(hex, "0123456789ABCDEF") != strlen(hex) || hex[2 * key->len])
		return 0;
	for (size_t i = 0; i < key->len; i++)
		sscanf(hex + 2 * i, "%2hhx", &key->at[i]);
	return 1;
}

int main(int argc, char **argv)
{
	static uint8_t length[2], command[65535], framed[2 + 65];
	struct key pin_key = { 0 }, pvk = { 0 };
	size_t got;

	if (argc != 3 || !read_key(argv[1], &pin_key) || !read_key(argv[2], &pvk))
		return fputs("usage: lab_server PIN-KEY PVK, in capital hex, at most 32 bytes\n", stderr), 2;
	while ((got = fread(length, 1, 2, stdin)) == 2) {
		size_t len = (size_t)length[0] << 8 | length[1];
		if (fread(command, 1, len, stdin) != len)
			return 1;
		qg_reply reply = qg_lab_answer(qg_usual(), command, len, pin_key.at, pin_key.len,
			pvk.at, pvk.len, framed + 2, sizeof framed - 2);
		framed[1] = (uint8_t)reply.written;
		/* of 902, no frame, the host hears nothing */
		if (reply.written > 0 && (fwrite(framed, 1, 2 + reply.written, stdout) == 0 || fflush(stdout) != 0))
			return 1;
	}
	return got != 0 || ferror(stdin);
}
