/* One check, from its words to all that is told and written of it. */
#define _XOPEN_SOURCE 700

#include "checking.h"

#include <stdio.h>
#include <stdlib.h>
#include <string.h>

#include "files.h"
#include "forms.h"
#include "mending.h"
#include "messages.h"
#include "moved.h"
#include "page.h"
#include "ranges.h"
#include "vouched.h"

/* ---- the files to write ---- */

/* A file to write, and what it is on the line. */
struct out {
	const char *name, *word;
};

/* How many files one check may write. */
#define OUTS ((size_t)4)

/* The command that a check is of. */
const char *command_of(const struct check *check)
{
	return check->verify ? "verify" : is_mending(check) ? "mend" : "audit";
}

/* A file to write is none of those read; false after a message. */
bool is_apart(const struct check *check, const char *out)
{
	const char *input = NULL;
	if (out == NULL)
		return true;
	for (size_t i = 0; i < check->sheet_count; i++)
		if (is_same_file(check->sheets[i].name, out))
			input = "a SHEET";
	for (size_t i = 0; i < check->list_count; i++)
		if (is_same_file(check->lists[i].file.name, out))
			input = "LIST";
	if (check->record.name != NULL && is_same_file(check->record.name, out))
		input = "RECORD";
	if (check->options->names != NULL && is_same_file(check->options->names, out))
		input = "the file of names";
	if (check->options->must != NULL && is_same_file(check->options->must, out))
		input = "the file of what must be";
	if (is_same_file(check->vendor.name, out))
		input = "VENDOR";
	if (is_same_file(check->shipped.name, out))
		input = "SHIPPED";
	if (input == NULL)
		return true;
	fail_usage(command_of(check), "the file to write is ", input, " itself, which would be lost");
	return false;
}

/* Two of the files to write are, or would be, one; false after a message. */
static bool are_two(const struct check *check, const struct out *one, const struct out *other)
{
	char both[60];
	if (one->name == NULL || other->name == NULL ||
	    (strcmp(one->name, other->name) != 0 && !is_same_file(one->name, other->name)))
		return true;
	snprintf(both, sizeof both, "%s and %s name one file", one->word, other->word);
	fail_usage(command_of(check), both, "", "");
	return false;
}

/* Each file to write is another than those read and those written, and none is there that mayn't be replaced. */
static bool are_apart(const struct check *check, const struct options *options)
{
	const struct out outs[OUTS] = { { options->report, "--report" }, { options->text, "--text" },
					{ options->hex, "--hex" }, { options->out, "OUT" } };
	for (size_t i = 0; i < OUTS * OUTS; i++)
		if (i / OUTS < i % OUTS && !are_two(check, &outs[i / OUTS], &outs[i % OUTS]))
			return false;
	for (size_t i = 0; i < OUTS; i++)
		if (!is_apart(check, outs[i].name))
			return false;
	return is_free(options->out) && is_free(options->report) && is_free(options->text) && is_free(options->hex);
}

/* Every range with all its bytes, a line each. */
static void write_ranges(FILE *to, const struct check *check)
{
	struct ranges ranges;
	struct range range;
	start_ranges(&ranges, check);
	while (next_range(&ranges, &range))
		put_range(to, &ranges, &range, UINT64_MAX);
}

/* The whole list, and every word that the move changes, as a text in memory of its own; false after a message. */
static bool make_text(const struct check *check, struct named *text)
{
	char *at = NULL;
	size_t length = 0;
	FILE *to = open_memstream(&at, &length);
	if (to == NULL) {
		fail_no_memory(text->name);
		return false;
	}
	write_ranges(to, check);
	put_moved(to, check);
	const bool whole = ferror(to) == 0;
	const bool closed = fclose(to) == 0;
	text->bytes = (struct bytes){ .at = (uint8_t *)at, .length = length };
	if (!whole || !closed)
		fail_no_memory(text->name);
	return whole && closed;
}

/* The page, the whole list, the mended file and its text, those that are asked for, all or none; of a refused check the
   page alone. The mended file comes last: it never stands there without its page. */
static bool save_outs(const struct check *check, const struct options *options)
{
	const bool list = options->text != NULL && check->number == PAJURENDA_ACCEPTED;
	struct named text = { .name = list ? options->text : NULL };
	struct output outputs[OUTS] = { { .name = text.name }, { .name = options->report },
					{ .name = check->hex.name, .bytes = check->hex.bytes },
					{ .name = check->mended.name, .bytes = check->mended.bytes } };
	bool saved = !list || make_text(check, &text);
	outputs[0].bytes = text.bytes;
	if (saved && options->report != NULL)
		saved = make_page(check, list ? &text : NULL, &outputs[1]);
	saved = saved && save_together(outputs, OUTS);
	free(outputs[1].bytes.at);
	free(text.bytes.at);
	return saved;
}

/* ---- one check ---- */

/* A loaded check judged, its files written, then its lines or its document. */
static enum status tell_check(struct check *check, const struct options *options)
{
	const enum status judged = judge(check);
	if (judged != FINE && check->number == PAJURENDA_ACCEPTED)
		return FAILED;
	if (judged == FINE && is_mending(check) && !put_back(check))
		return FAILED;
	note_files(check);
	say_notes(check);
	if (!save_outs(check, options))
		return FAILED;
	if ((options->given & JSON) != 0)
		return write_check(check);
	if (judged != FINE)
		return FAILED;
	if ((options->given & QUIET) != 0)
		return status_of(check);
	if (is_mending(check))
		return show_mended(check, options->given);
	return check->verify ? show_verify(check) : show_audit(check, options->given);
}

/* All of one pair. */
enum status run_one(bool verify, char **word, const struct options *options)
{
	struct check check;
	enum status status = FAILED;
	keep_refusals((options->given & (JSON | QUIET)) != 0);
	if (load_check(&check, verify, word, options) && are_apart(&check, options))
		status = tell_check(&check, options);
	end_check(&check);
	return status;
}
