/* What a release writes beside the image, where it may go, and the record that it goes on with. */
#define _XOPEN_SOURCE 700

#include "releasing.h"

#include <stdlib.h>
#include <string.h>
#include <time.h>

#include "messages.h"
#include "paths.h"

/* ---- the files to write ---- */

/* Where the record goes: beside OUT, or where it is asked to; false after a message. */
bool name_record(struct releasing *r)
{
	const struct options *options = r->options;
	if ((options->given & NO_RECORD) != 0 && (options->record != NULL || options->after != NULL)) {
		fail_usage("release", "--no-record goes with neither --record nor --after", "", "");
		return false;
	}
	if ((options->given & NO_RECORD) != 0)
		return true;
	r->record = with_ending(options->record != NULL ? options->record : r->out,
				options->record != NULL ? "" : RECORD_ENDING);
	if (r->record == NULL)
		fail_no_memory(r->out);
	return r->record != NULL;
}

/* Both names are, or would be, those of one file. */
static bool is_one(const char *one, const char *other)
{
	return one != NULL && other != NULL && (strcmp(one, other) == 0 || is_same_file(one, other));
}

/* An output is none of the inputs and outputs before it; false after a message. */
static bool is_out_apart(const struct role *out, const struct role *others, size_t count)
{
	for (size_t i = 0; i < count; i++) {
		if (!is_one(out->name, others[i].name))
			continue;
		char after[100];
		snprintf(after, sizeof after, " itself, which would be lost%s",
			 strcmp(out->word, "the record to write is ") == 0 ? ": name another by --record FILE" : "");
		fail_usage("release", out->word, others[i].word, after);
		return false;
	}
	return true;
}

/* Every file to write is another than all that is read and written; OUT may be IMAGE. */
bool are_outputs_apart(const struct releasing *r)
{
	const struct role files[] = {
		{ r->sheet.name, "SHEET" }, { r->list.name, "LIST" }, { r->options->names, "the file of names" },
		{ r->after.name, "the record of --after" }, { r->image.name, "IMAGE" }, { r->out, "OUT" },
		{ r->hex, "the file for --hex" },
	};
	const struct role out = { r->out, "OUT is " }, hex = { r->hex, "the file for --hex is " },
			  record = { r->record, "the record to write is " };
	return is_out_apart(&out, files, 4) && is_out_apart(&hex, files, 6) && is_out_apart(&record, files, 7);
}

/* Nothing stands where they go, or it may be replaced; false after a message. */
bool are_outputs_free(const struct releasing *r)
{
	const bool replace = (r->options->given & REPLACE) != 0;
	if (!replace && is_same_file(r->image.name, r->out)) {
		fail_usage("release", "OUT is IMAGE itself, ", r->image.name,
			   ": with --replace it is replaced, and what it was is gone");
		return false;
	}
	return is_free(r->out) && is_free(r->hex) && is_free(r->record);
}

/* ---- the record before ---- */

/* A file isn't what a record has; what it is, where the record knows it. */
static bool fail_other(const struct releasing *r, const char *digits)
{
	const struct record *after = &r->after;
	fputs("pajurenda: release: ", stderr);
	say_name(r->image.name);
	fputs(" isn't what ", stderr);
	say_name(after->name);
	fprintf(stderr, " made last: its SHA-256 is %s, the record's %s", digits,
		after->steps[after->count - 1].result.digest);
	if (strcmp(digits, after->maker.digest) == 0)
		fputs("; it is the maker's image of that record, so --after goes without", stderr);
	for (size_t i = 0; i + 1 < after->count; i++)
		if (strcmp(digits, after->steps[i].result.digest) == 0)
			fprintf(stderr, "; it is what its step %zu made", i + 1);
	fputc('\n', stderr);
	return false;
}

/* IMAGE is what a record beside it made: going on without that record would take it for the maker's. */
static bool fail_recorded(const struct releasing *r, const char *record)
{
	fputs("pajurenda: release: ", stderr);
	say_name(r->image.name);
	fputs(" is a released image, no maker's: ", stderr);
	say_name(record);
	fputs(" has made it; go on with that record by --after ", stderr);
	say_name(record);
	fputc('\n', stderr);
	return false;
}

/* No record beside IMAGE says that it was released; false after a message. */
static bool is_unreleased(const struct releasing *r)
{
	char *name = with_ending(r->image.name, RECORD_ENDING), digits[DIGEST_DIGITS + 1];
	struct record record = { .name = name };
	struct bytes bytes = { .at = NULL };
	bool unreleased = true;
	if (name != NULL && load_quietly(name, &bytes) && is_record(&bytes))
		unreleased = take_record(name, &bytes, &record) &&
			     (!is_filed(&record.steps[record.count - 1].result, &r->image.bytes, digits) ||
			      fail_recorded(r, name));
	free_record(&record);
	free(bytes.at);
	free(name);
	return unreleased;
}

/* IMAGE is what the record before it made, or no record has made it; false after a message. */
bool follows_record(struct releasing *r)
{
	char digits[DIGEST_DIGITS + 1];
	if (r->record == NULL)
		return true;
	if (r->after.name == NULL)
		return is_unreleased(r);
	return is_filed(&r->after.steps[r->after.count - 1].result, &r->image.bytes, digits) || fail_other(r, digits);
}

/* ---- the record to write ---- */

/* What stands where OUT goes, for who finds it there although the record says otherwise; false after a message. */
static bool file_standing(const struct releasing *r, struct filed *filed)
{
	struct bytes bytes;
	if (!load_quietly(r->out, &bytes))
		return true;
	const bool taken = file_of(r->out, &bytes, filed);
	free(bytes.at);
	return taken;
}

/* Every file of the step; false after a message. */
static bool file_step(const struct releasing *r, struct adding *adding)
{
	struct step *step = &adding->step;
	return file_of(r->image.name, &r->before, &adding->maker) &&
	       file_of(r->sheet.name, &r->sheet.bytes, &step->sheet) &&
	       file_of(r->list.name, &r->list.bytes, &step->owners) &&
	       (r->naming.file.name == NULL ||
		file_of(r->naming.file.name, &r->naming.file.bytes, &step->names)) &&
	       file_of(r->out, &r->image.bytes, &step->result) && file_standing(r, &step->replaced);
}

/* The record of a release that the library has made, in memory of its own; false after a message. */
bool record_release(const struct releasing *r, struct output *made)
{
	char when[40] = "unknown";
	const time_t now = time(NULL);
	const struct tm *parts = gmtime(&now);
	struct adding adding = {
		.after = r->after.name == NULL ? NULL : &r->after, .name = r->record, .reading = r->reading,
		.before = &r->before, .sheet = &r->sheet.bytes, .labels = names_of(&r->naming),
		.step = { .time = when, .tool = PAJURENDA_VERSION, .owner = r->asking.owner,
			  .after = r->asking.base, .before = pajurenda_field(r->reading, PAJURENDA_READ_BASE) },
	};
	if (r->record == NULL)
		return true;
	if (parts != NULL)
		strftime(when, sizeof when, "%Y-%m-%dT%H:%M:%SZ", parts);
	return file_step(r, &adding) && make_record(&adding, made);
}
