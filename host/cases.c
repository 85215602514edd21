#include "cases.h"

#include <stdio.h>
#include <stdlib.h>
#include <string.h>

#include "lent.h"

/* No case takes more: its runs, its output before and after, and far fewer
 * other bytes than a run has. */
#define CASE_MOST ((CASE_RUNS + 3) * (size_t)LENT_MOST)

/* A few of the longest cases, and thousands of the usual ones. */
#define WINDOW (4 * CASE_MOST)

/* What a file begins with, today's and the older one's. */
#define MARK 8
static const char mark[] = "QGCASES2";
static const char older_mark[] = "QGCASES1";

/* The first fault is the one that is told. */
static bool refuse(struct case_file *file, const char *fault)
{
	if (file->fault == NULL)
		file->fault = fault;
	return false;
}

/* The next len bytes, or NULL and a fault where the file ends before. */
static const uint8_t *take(struct case_file *file, size_t len)
{
	const uint8_t *found = file->bytes + file->at;

	if (file->len - file->at < len) {
		refuse(file, "the file ends inside a case or before its trailer");
		return NULL;
	}
	file->at += len;
	return found;
}

static bool take_number(struct case_file *file, size_t width, uint64_t *value)
{
	const uint8_t *found = take(file, width);

	if (found == NULL)
		return false;
	*value = 0;
	for (size_t i = 0; i < width; i++)
		*value |= (uint64_t)found[i] << (8 * i);
	return true;
}

static bool take_u8(struct case_file *file, uint8_t *value)
{
	uint64_t wide;

	if (!take_number(file, 1, &wide))
		return false;
	*value = (uint8_t)wide;
	return true;
}

static bool take_u32(struct case_file *file, uint32_t *value)
{
	uint64_t wide;

	if (!take_number(file, 4, &wide))
		return false;
	*value = (uint32_t)wide;
	return true;
}

static bool take_bytes(struct case_file *file, size_t len, struct case_run *run)
{
	run->bytes = take(file, len);
	run->len = len;
	return run->bytes != NULL;
}

/* A length, then that many bytes. */
static bool take_run(struct case_file *file, struct case_run *run)
{
	uint32_t len;

	if (!take_u32(file, &len))
		return false;
	if (len > LENT_MOST)
		return refuse(file, "a run is longer than this host lends");
	return take_bytes(file, len, run);
}

static bool take_numbers(struct case_file *file, struct call_case *one)
{
	if (!take_u8(file, &one->numbers_len))
		return false;
	if (one->numbers_len > CASE_NUMBERS)
		return refuse(file, "a case has more numbers than any call");
	for (size_t i = 0; i < one->numbers_len; i++)
		if (!take_number(file, 8, &one->numbers[i]))
			return false;
	return true;
}

static bool take_runs(struct case_file *file, struct call_case *one)
{
	if (!take_u8(file, &one->runs_len))
		return false;
	if (one->runs_len > CASE_RUNS)
		return refuse(file, "a case has more runs than any call");
	for (size_t i = 0; i < one->runs_len; i++)
		if (!take_run(file, &one->runs[i]))
			return false;
	return true;
}

static bool take_output(struct case_file *file, struct call_case *one)
{
	uint8_t has_out;

	if (!take_u8(file, &has_out))
		return false;
	if (has_out > 1)
		return refuse(file, "a case says neither 0 nor 1 for its output");
	one->has_out = has_out == 1;
	return !one->has_out || take_run(file, &one->before);
}

static bool take_pointed(struct case_file *file, struct call_case *one)
{
	one->points = file->points;
	return !one->points ||
		(take_u32(file, &one->place) && take_u32(file, &one->field));
}

static bool take_answer(struct case_file *file, struct call_case *one)
{
	return take_u32(file, &one->number) && take_u32(file, &one->written) &&
		take_pointed(file, one) &&
		(!one->has_out || take_bytes(file, one->before.len, &one->after));
}

static bool take_trailer(struct case_file *file)
{
	uint64_t count;

	if (!take_number(file, 8, &count))
		return false;
	if (count != file->count)
		return refuse(file, "the trailer counts another number of cases");
	if (file->at != file->len)
		return refuse(file, "bytes stand behind the trailer");
	if (count == 0)
		return refuse(file, "the file has no case");
	return true;
}

/* Has the window hold a whole case, or all that is left of the file. */
static bool move_window(struct case_file *file)
{
	size_t left = file->len - file->at;

	if (file->ended || left >= CASE_MOST)
		return true;
	memmove(file->bytes, file->bytes + file->at, left);
	file->at = 0;
	file->len = left + fread(file->bytes + left, 1, WINDOW - left, file->stream);
	file->ended = file->len < WINDOW;
	return !ferror(file->stream) || refuse(file, "the file cannot be read");
}

bool cases_next(struct case_file *file, struct call_case *one)
{
	memset(one, 0, sizeof *one);
	if (file->fault != NULL || !move_window(file) || !take_u8(file, &one->code))
		return false;
	if (one->code == 0) {
		take_trailer(file);
		return false;
	}
	if (!take_numbers(file, one) || !take_runs(file, one) ||
		!take_output(file, one) || !take_answer(file, one))
		return false;
	file->count++;
	return true;
}

/* Reads the mark, which says whether the cases have place and field. */
static bool take_mark(struct case_file *file)
{
	const uint8_t *begin = take(file, MARK);

	file->points = begin != NULL && memcmp(begin, mark, MARK) == 0;
	if (file->points || (begin != NULL && memcmp(begin, older_mark, MARK) == 0))
		return true;
	file->fault = "the file begins with neither QGCASES2 nor QGCASES1";
	return false;
}

bool cases_open(struct case_file *file, const char *path)
{
	memset(file, 0, sizeof *file);
	file->stream = fopen(path, "rb");
	if (file->stream == NULL)
		return refuse(file, "the file cannot be opened");
	file->bytes = malloc(WINDOW);
	if (file->bytes == NULL)
		return refuse(file, "there is no memory for the file");
	return move_window(file) && take_mark(file);
}

void cases_close(struct case_file *file)
{
	if (file->stream != NULL)
		fclose(file->stream);
	free(file->bytes);
	file->stream = NULL;
	file->bytes = NULL;
}
