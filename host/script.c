#include "script.h"

#include <string.h>

#include "script_expected.h"
#include "script_lab.h"
#include "text.h"

/* When a line of a kind may stand. */
enum place {
	PLACE_BEFORE_ASKS,  /* what the asking call is handed */
	PLACE_KEY_BOX,      /* what the key box answers: not while lab keys are set */
	PLACE_ANY,
};

/* A kind of line: its first word, and how the rest of it is taken. What is
 * wrong with the rest, or NULL. */
struct kind {
	const char *word;
	enum place place;
	enum script_step step;
	const char *(*take)(struct script *script, const char *rest);
};

static const char *take_name(struct script *script, const char *rest)
{
	size_t len = strlen(rest);

	if (len == 0)
		return "name: no words follow";
	if (len >= SCRIPT_NAME)
		return "name: longer than 127 characters";
	memcpy(script->now.name, rest, len + 1);
	return NULL;
}

static const char *take_usual(struct script *script, const char *rest)
{
	if (*rest != '\0')
		return "usual: it stands alone in its line";
	script->now.settings = qg_usual();
	return NULL;
}

static const char *take_header(struct script *script, const char *rest)
{
	uint32_t number;

	/* over 16 is admitted: the box answers it with 902 */
	if (!text_is_number(rest, &number))
		return "header: a number of one to three figures must follow";
	script->now.settings.header = number;
	return NULL;
}

static const char *take_flag(const char *rest, uint8_t *flag)
{
	bool yes = strcmp(rest, "yes") == 0;

	if (!yes && strcmp(rest, "no") != 0)
		return "this setting is yes or no";
	*flag = yes;
	return NULL;
}

static const char *take_restricted(struct script *script, const char *rest)
{
	return take_flag(rest, &script->now.settings.restricted);
}

static const char *take_variable(struct script *script, const char *rest)
{
	return take_flag(rest, &script->now.settings.variable);
}

static const char *take_room(struct script *script, const char *rest)
{
	uint32_t number;

	if (!text_is_number(rest, &number) || number > SCRIPT_ROOM)
		return "room: a number from 0 to 128 must follow";
	script->now.room = number;
	return NULL;
}

static const char *take_more(struct script *script, const char *rest)
{
	struct script_exchange *now = &script->now;
	struct text_bytes bytes = { now->command, now->command_len, SCRIPT_COMMAND };

	if (!script->in_command)
		return "more: no command line stands before it";
	const char *fault = text_read(rest, &bytes);
	now->command_len = bytes.len;
	return fault;
}

static const char *take_command(struct script *script, const char *rest)
{
	script->now.command_len = 0;
	script->now.command_given = true;
	script->commanded = true;
	script->in_command = true;
	return take_more(script, rest);
}

const char *script_take_slice(const char *rest, struct script_slice *slice)
{
	struct text_bytes bytes = { slice->at, 0, SCRIPT_SLICE };
	const char *fault = text_read_hex(rest, &bytes);

	slice->len = bytes.len;
	slice->given = true;
	return fault;
}

static const char *take_block(struct script *script, const char *rest)
{
	return script_take_slice(rest, &script->now.block);
}

static const char *take_enciphered(struct script *script, const char *rest)
{
	return script_take_slice(rest, &script->now.enciphered);
}

/* Reads good or bad and moves behind it. */
static bool read_parity(const char **rest, uint8_t *good)
{
	*good = strncmp(*rest, "good", 4) == 0;
	if (!*good && strncmp(*rest, "bad", 3) != 0)
		return false;
	*rest += *good ? 4 : 3;
	return true;
}

static const char *take_parity(struct script *script, const char *rest)
{
	static const char fault[] = "parity: good or bad must follow for the PIN key, then for the PVK";

	if (!read_parity(&rest, &script->now.pin_key_parity_good) || *rest != ' ')
		return fault;
	rest += strspn(rest, " ");
	if (!read_parity(&rest, &script->now.pvk_parity_good) || *rest != '\0')
		return fault;
	return NULL;
}

static const struct kind kinds[] = {
	{ "name", PLACE_BEFORE_ASKS, SCRIPT_OTHER, take_name },
	{ "usual", PLACE_BEFORE_ASKS, SCRIPT_OTHER, take_usual },
	{ "header", PLACE_BEFORE_ASKS, SCRIPT_OTHER, take_header },
	{ "restricted", PLACE_BEFORE_ASKS, SCRIPT_OTHER, take_restricted },
	{ "variable", PLACE_BEFORE_ASKS, SCRIPT_OTHER, take_variable },
	{ "room", PLACE_BEFORE_ASKS, SCRIPT_OTHER, take_room },
	{ "command", PLACE_BEFORE_ASKS, SCRIPT_OTHER, take_command },
	{ "more", PLACE_BEFORE_ASKS, SCRIPT_OTHER, take_more },
	{ "block", PLACE_KEY_BOX, SCRIPT_OTHER, take_block },
	{ "enciphered", PLACE_KEY_BOX, SCRIPT_OTHER, take_enciphered },
	{ "parity", PLACE_KEY_BOX, SCRIPT_OTHER, take_parity },
	{ "pinkey", PLACE_ANY, SCRIPT_OTHER, script_take_pinkey },
	{ "pvk", PLACE_ANY, SCRIPT_OTHER, script_take_pvk },
	{ "keybox", PLACE_ANY, SCRIPT_OTHER, script_take_keybox },
	{ "seal", PLACE_ANY, SCRIPT_OTHER, script_take_seal },
	{ "sealed", PLACE_ANY, SCRIPT_SEALED, script_take_sealed },
	{ "asks", PLACE_ANY, SCRIPT_ASKS, script_take_asks },
	{ "answers", PLACE_ANY, SCRIPT_ANSWERS, script_take_answers },
};

static const struct kind *kind_of(const char *word, size_t len)
{
	for (size_t i = 0; i < sizeof kinds / sizeof kinds[0]; i++)
		if (strlen(kinds[i].word) == len && memcmp(kinds[i].word, word, len) == 0)
			return &kinds[i];
	return NULL;
}

static enum script_step refuse(struct script *script, const char *fault)
{
	script->fault = fault;
	return SCRIPT_FAULT;
}

/* A word may hold any byte but 00 and be as long as its line, so it is not put
 * into the fault's words: whoever tells the fault shows it. */
static enum script_step refuse_word(struct script *script, const char *word, size_t len)
{
	script->word = word;
	script->word_len = len;
	return refuse(script, "no line of a script begins with this word");
}

/* Drops what is the matter of one exchange alone. */
static void begin_exchange(struct script *script)
{
	script->now.name[0] = '\0';
	memset(&script->now.asks, 0, sizeof script->now.asks);
	memset(&script->now.answers, 0, sizeof script->now.answers);
	script->commanded = false;
	script->begun = false;
}

/* Why a line of a kind may not stand here, or NULL. */
static const char *misplaced(const struct script *script, const struct kind *kind)
{
	const struct script_exchange *now = &script->now;

	/* a PIN is sealed under the key that holds at its sealed line */
	if (now->seal.given && kind->step != SCRIPT_SEALED)
		return "nothing can stand between seal and sealed";
	if (kind->place == PLACE_BEFORE_ASKS && now->asks.given)
		return "this cannot change between asks and answers";
	if (kind->place == PLACE_KEY_BOX && (now->pin_key.given || now->pvk.given))
		return "lab keys are set, and no key box is asked: a keybox line puts them away";
	return NULL;
}

/* Takes a line that is neither blank nor a comment. */
static enum script_step take_line(struct script *script, const char *word)
{
	size_t len = strcspn(word, TEXT_BLANKS);
	const struct kind *kind = kind_of(word, len);

	if (kind == NULL)
		return refuse_word(script, word, len);
	if (script->now.answers.given)
		begin_exchange(script);
	const char *fault = misplaced(script, kind);
	if (fault != NULL)
		return refuse(script, fault);
	if (kind->take != take_more && kind->take != take_command)
		script->in_command = false;
	script->rest = word + len + strspn(word + len, TEXT_BLANKS);
	fault = kind->take(script, script->rest);
	if (fault != NULL)
		return refuse(script, fault);
	script->begun = kind->step != SCRIPT_ANSWERS;
	script->sealed = kind->step == SCRIPT_SEALED;
	if (kind->step == SCRIPT_ANSWERS)
		script->exchanges++;
	return kind->step;
}

/* Reads the line's characters. What is wrong with them, or NULL. */
static const char *read_line(struct script *script, int first)
{
	size_t len = 0;

	for (int c = first; c != EOF && c != '\n'; c = getc(script->stream)) {
		if (c == '\0')
			return "a byte 00 stands in the line";
		if (len + 1 == SCRIPT_LINE)
			return "the line is longer than 8191 characters";
		script->text[len++] = (char)c;
	}
	script->text[text_trimmed(script->text, len)] = '\0';
	return NULL;
}

/* Whether an exchange would be left unplayed. A sealed line may be the last, where
 * nothing that makes an exchange stands before it. */
static bool is_open(const struct script *script)
{
	const struct script_exchange *now = &script->now;

	return script->begun && (!script->sealed || now->name[0] != '\0' || script->commanded ||
		now->asks.given);
}

/* A script that ends inside an exchange would leave it unplayed, unseen. */
static enum script_step end(struct script *script)
{
	if (ferror(script->stream))
		return refuse(script, "the file cannot be read");
	if (script->now.seal.given)
		return refuse(script, "the script ends before the sealed line of its last seal line");
	if (is_open(script))
		return refuse(script, "the script ends before the answers line of its last exchange");
	if (script->exchanges == 0 && !script->sealed)
		return refuse(script, "the script has no exchange and seals no PIN");
	return SCRIPT_END;
}

enum script_step script_take(struct script *script, const char *line)
{
	const char *word = line + strspn(line, TEXT_BLANKS);

	if (*word == '\0' || *word == '#')
		return SCRIPT_OTHER;
	return take_line(script, word);
}

enum script_step script_next(struct script *script)
{
	int first = getc(script->stream);

	if (first == EOF)
		return end(script);
	script->line++;
	const char *fault = read_line(script, first);
	if (fault != NULL)
		return refuse(script, fault);
	return script_take(script, script->text);
}

void script_show_fault(FILE *stream, const struct script *script)
{
	fputs(script->fault, stream);
	if (script->word == NULL)
		return;
	fputs(": ", stream);
	text_show(stream, (const uint8_t *)script->word, script->word_len);
}

void script_begin(struct script *script, bool may_be_open)
{
	memset(script, 0, sizeof *script);
	script->may_be_open = may_be_open;
	script->now.settings = qg_usual();
	script->now.room = SCRIPT_ROOM;
	script->now.pin_key_parity_good = 1;
	script->now.pvk_parity_good = 1;
}

bool script_open(struct script *script, const char *path, bool may_be_open)
{
	script_begin(script, may_be_open);
	script->stream = fopen(path, "rb");
	return script->stream != NULL;
}

void script_close(struct script *script)
{
	fclose(script->stream);
	script->stream = NULL;
}
