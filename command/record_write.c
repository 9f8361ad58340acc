/* A release's record written: the steps of the record before it, and the new one. */
#define _XOPEN_SOURCE 700

#include <inttypes.h>
#include <stdlib.h>
#include <string.h>

#include "help.h"
#include "letters.h"
#include "messages.h"
#include "naming.h"
#include "pajurenda.h"
#include "paths.h"
#include "record.h"
#include "show.h"
#include "signs.h"
#include "volumes.h"

/* A record on its way; what can't be named is noted. */
struct writing {
	FILE *to;
	const struct adding *adding;
	const char *unnamed;
};

/* ---- small ones ---- */

/* A file's name from the record's folder: given from here, or from the folder of the record before. */
static void put_path(struct writing *w, const struct filed *filed, bool before)
{
	char *here = before ? path_at(w->adding->after->name, filed->name) : with_ending(filed->name, "");
	char *path = here == NULL ? NULL : path_from(w->adding->name, here);
	const char *put = path != NULL ? path : filed->name;
	if ((path == NULL && !before) || !is_utf8(put) || (!before && strcmp(filed->name, "-") == 0))
		w->unnamed = filed->name;
	put_json_text(w->to, put);
	free(path);
	free(here);
}

/* A file as a member; null where there is none. */
static void put_file(struct writing *w, const char *lead, const struct filed *filed, bool before)
{
	fputs(lead, w->to);
	if (filed->name == NULL) {
		fputs("null", w->to);
		return;
	}
	fputs("{\"file\": ", w->to);
	put_path(w, filed, before);
	fprintf(w->to, ", \"length\": %" PRIu64 ", \"sha256\": \"%s\"}", filed->length, filed->digest);
}

/* Bytes in hex, in quotes. */
static void put_hex(FILE *to, const char *lead, const uint8_t *bytes, size_t count)
{
	fprintf(to, "%s\"", lead);
	show_hex(to, bytes, count);
	fputc('"', to);
}

/* The words of a choice, or null. */
static void put_words(FILE *to, const char *lead, const char *words)
{
	fputs(lead, to);
	if (words == NULL)
		fputs("null", to);
	else
		put_json_text(to, words);
}

/* ---- entries ---- */

/* Every name that an entry touches; of one that it sets whole the words of both values. */
static void put_labels(FILE *to, const struct names *names, const struct change *change)
{
	const uint64_t end = change->offset + change->length;
	const char *lead = ", \"names\": [";
	const struct label *label;
	uint64_t at = change->offset;
	if (names == NULL) {
		fputs(", \"names\": null", to);
		return;
	}
	while ((label = next_name(names, &at, end)) != NULL) {
		const bool whole = label->offset >= change->offset && label->offset + (uint64_t)label->length <= end;
		const size_t from = whole ? (size_t)(label->offset - change->offset) : 0;
		fprintf(to, "%s{\"name\": ", lead);
		put_json_text(to, label->name);
		fprintf(to, ", \"offset\": \"0x%04" PRIX32 "\", \"length\": %" PRIu32, label->offset, label->length);
		put_words(to, ", \"old_words\": ", whole ? names_words(label, change->old + from) : NULL);
		put_words(to, ", \"new_words\": ", whole ? names_words(label, change->new + from) : NULL);
		fputc('}', to);
		lead = ", ";
	}
	fputs(*lead == ',' && lead[2] == '"' ? ", \"names\": []" : "]", to);
}

/* Each entry of the sheet, old -> new; false where the library finds no such setting. */
static bool put_entries(FILE *to, const struct adding *adding)
{
	const uint64_t count = number_at(adding->sheet, 12, 2);
	struct change change;
	fputs(",\n      \"entries\": [", to);
	for (uint64_t i = 0; i < count; i++) {
		if (!entry_change(adding->before, adding->sheet, i, &change))
			return false;
		fprintf(to, "%s\n        {\"offset\": \"0x%04" PRIX64 "\", \"place\": %" PRIu64, i == 0 ? "" : ",",
			change.offset, change.place);
		put_hex(to, ", \"old\": ", change.old, change.length);
		put_hex(to, ", \"new\": ", change.new, change.length);
		put_labels(to, adding->labels, &change);
		fputc('}', to);
	}
	fputs(count == 0 ? "]" : "\n      ]", to);
	return true;
}

/* ---- steps ---- */

/* What stands before a step's entries. */
static void put_head(struct writing *w, const struct step *step, size_t index, bool before)
{
	fprintf(w->to, "%s\n    {\n      \"step\": %zu,\n      \"time\": ", index == 0 ? "" : ",", index + 1);
	put_json_text(w->to, step->time);
	fputs(",\n      \"tool\": ", w->to);
	put_json_text(w->to, step->tool);
	put_file(w, ",\n      \"sheet\": ", &step->sheet, before);
	put_file(w, ",\n      \"owners\": ", &step->owners, before);
	fprintf(w->to, ",\n      \"owner\": %" PRIu64, step->owner);
	put_file(w, ",\n      \"names\": ", &step->names, before);
	fprintf(w->to, ",\n      \"base_before\": \"0x%08" PRIX64 "\",\n      \"base_after\": \"0x%08" PRIX64 "\"",
		step->before, step->after);
}

/* What stands after them. */
static void put_tail(struct writing *w, const struct step *step, bool before)
{
	put_file(w, ",\n      \"result\": ", &step->result, before);
	put_file(w, ",\n      \"replaced\": ", &step->replaced, before);
	fputs("\n    }", w->to);
}

/* A list as the record before has it. */
static void put_list(FILE *to, const char *name, const struct piece *list)
{
	fprintf(to, ",\n      \"%s\": %.*s", name, (int)(list->to - list->from), list->from);
}

/* The steps of the record before. */
static void put_steps_before(struct writing *w)
{
	const struct record *after = w->adding->after;
	for (size_t i = 0; after != NULL && i < after->count; i++) {
		put_head(w, &after->steps[i], i, true);
		put_list(w->to, "entries", after->steps[i].entries);
		put_list(w->to, "not_walked", after->steps[i].not_walked);
		put_tail(w, &after->steps[i], true);
	}
}

/* All steps; false where the sheet's entries can't be shown. */
static bool put_steps(struct writing *w)
{
	const struct adding *adding = w->adding;
	fputs(",\n  \"steps\": [", w->to);
	put_steps_before(w);
	put_head(w, &adding->step, adding->after == NULL ? 0 : adding->after->count, false);
	if (!put_entries(w->to, adding))
		return false;
	fputs(",\n      \"not_walked\": ", w->to);
	record_unwalked(w->to, adding->before);
	put_tail(w, &adding->step, false);
	fputs("\n  ]", w->to);
	return true;
}

/* ---- the whole ---- */

/* The maker's image, and what it is by; of a record before it as it has it. */
static void put_maker(struct writing *w)
{
	const struct record *after = w->adding->after;
	const uint8_t *reading = w->adding->reading;
	const uint64_t revision = pajurenda_field(reading, PAJURENDA_READ_REVISION);
	const uint64_t extended = pajurenda_field(reading, PAJURENDA_READ_EXTENDED);
	put_file(w, ",\n  \"maker\": ", after == NULL ? &w->adding->maker : &after->maker, after != NULL);
	put_hex(w->to, ",\n  \"identity\": ", pajurenda_identity(reading), 8);
	fprintf(w->to, ",\n  \"revision\": \"0x%08" PRIX64 "\",\n  \"extended\": \"0x%04" PRIX64
		"\",\n  \"version\": \"", revision, extended);
	show_image_version(w->to, revision, extended);
	fprintf(w->to, "\",\n  \"base\": \"0x%08" PRIX64 "\"",
		after == NULL ? w->adding->step.before : after->base);
}

/* All but the digest; false where it can't be written. */
static bool put_record(struct writing *w)
{
	fprintf(w->to, "{\n  \"record\": \"pajurenda release\",\n  \"format\": %d,\n  \"tool\": \"pajurenda %s\"",
		RECORD_FORMAT, PAJURENDA_VERSION);
	fputs(",\n  \"proved_with\": ", w->to);
	put_json_text(w->to, kit_name());
	put_maker(w);
	return put_steps(w);
}

/* The digest of what is there, after it, in memory that has room for it. */
static bool end_record(struct output *made)
{
	static const char form[] = ",\n  \"record_sha256\": \"%s\"\n}\n";
	char digits[DIGEST_DIGITS + 1];
	const size_t room = made->bytes.length + sizeof form + DIGEST_DIGITS;
	char *at = realloc(made->bytes.at, room);
	if (at == NULL)
		return false;
	made->bytes.at = (uint8_t *)at;
	if (!find_digest(&made->bytes, digits))
		return false;
	made->bytes.length += (size_t)snprintf(at + made->bytes.length, room - made->bytes.length, form, digits);
	return true;
}

/* Why there is no record. */
static bool fail_unmade(const struct writing *w, const char *name)
{
	if (w->unnamed == NULL) {
		fail_no_memory(name);
		return false;
	}
	fputs("pajurenda: ", stderr);
	say_name(w->unnamed);
	fputs(strcmp(w->unnamed, "-") == 0 ? ": standard input has no name that a record could keep: give a file, or --no-record\n"
					   : ": its path is not UTF-8 or can't be found, so no record can name it; rename it, or "
					     "give --no-record\n", stderr);
	return false;
}

/* The record in memory of its own, to be let go; false after a message. */
bool make_record(const struct adding *adding, struct output *made)
{
	char *at = NULL;
	size_t length = 0;
	struct writing w = { .to = open_memstream(&at, &length), .adding = adding };
	if (w.to == NULL)
		return fail_unmade(&w, made->name);
	const bool put = put_record(&w), whole = ferror(w.to) == 0;
	const bool closed = fclose(w.to) == 0;
	made->bytes = (struct bytes){ .at = (uint8_t *)at, .length = length };
	if (!put) {
		(void)fail_answer();
		return false;
	}
	return (whole && closed && w.unnamed == NULL && end_record(made)) || fail_unmade(&w, made->name);
}
