#include "script_lab.h"

#include <string.h>

#include "meanings.h"
#include "script_expected.h"
#include "text.h"

#define BLOCK 8

bool script_is_lab(const struct script_exchange *e)
{
	return e->pin_key.given && e->pvk.given;
}

const char *script_take_pinkey(struct script *script, const char *rest)
{
	return script_take_slice(rest, &script->now.pin_key);
}

const char *script_take_pvk(struct script *script, const char *rest)
{
	return script_take_slice(rest, &script->now.pvk);
}

const char *script_take_keybox(struct script *script, const char *rest)
{
	if (*rest != '\0')
		return "keybox: it stands alone in its line";
	script->now.pin_key.given = false;
	script->now.pvk.given = false;
	return NULL;
}

/* Puts the characters of the next word behind those that are there, and moves
 * behind the blanks that follow it. False: there is no word, or no place. */
static bool take_characters(const char **words, uint8_t *at, size_t *len)
{
	*len = strcspn(*words, TEXT_BLANKS);
	if (*len == 0 || *len > SCRIPT_WORD)
		return false;
	memcpy(at, *words, *len);
	*words += *len;
	*words += strspn(*words, TEXT_BLANKS);
	return true;
}

/* A PIN is handed over as the values of its digits. */
static bool take_pin(const char **words, struct script_seal *seal)
{
	if (!take_characters(words, seal->pin, &seal->pin_len))
		return false;
	for (size_t i = 0; i < seal->pin_len; i++) {
		if (seal->pin[i] < '0' || seal->pin[i] > '9')
			return false;
		seal->pin[i] = (uint8_t)(seal->pin[i] - '0');
	}
	return true;
}

/* Eight bytes 00 where no fill follows. */
static bool take_fill(const char *words, struct script_seal *seal)
{
	struct text_bytes bytes = { seal->fill, 0, SCRIPT_WORD };

	memset(seal->fill, 0, sizeof seal->fill);
	bool taken = text_read_hex(words, &bytes) == NULL;
	seal->fill_len = *words == '\0' ? BLOCK : bytes.len;
	return taken;
}

const char *script_take_seal(struct script *script, const char *rest)
{
	struct script_seal *seal = &script->now.seal;

	if (!script->alone && !script->now.pin_key.given)
		return "seal: no pinkey line stands before it";
	memset(seal, 0, sizeof *seal);
	bool numbered = text_read_number(&rest, TEXT_FIGURES, &seal->format);
	size_t blanks = strspn(rest, TEXT_BLANKS);
	rest += blanks;
	if (!numbered || blanks == 0 || !take_pin(&rest, seal) ||
		!take_characters(&rest, seal->account, &seal->account_len) || !take_fill(rest, seal))
		return "seal: a format, a PIN in digits and an account must follow, and a fill in hex may";
	seal->given = true;
	return NULL;
}

const char *script_take_sealed(struct script *script, const char *rest)
{
	struct script_expected *sealed = &script->now.seal.sealed;
	struct text_bytes bytes = { sealed->bytes, 0, SCRIPT_ROOM };

	if (!script->now.seal.given)
		return "sealed: no seal line stands before it";
	/* what was to be sealed stays until the next line, for whoever plays it */
	script->now.seal.given = false;
	if (script_is_open(rest))
		return script_take_open(script);
	if (text_is_number(rest, &sealed->number))
		return sealed->number != 0 && meaning_of(sealed->number) != NULL ? NULL :
			"sealed: the paper has no refusal of this number";
	sealed->number = 0;
	if (text_read_hex(rest, &bytes) != NULL || bytes.len != BLOCK)
		return "sealed: a block of 8 bytes in hex must follow, or the number of a refusal";
	sealed->len = bytes.len;
	return NULL;
}
