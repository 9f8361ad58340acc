/* sheet start IMAGE TEXT: a text to begin with, for this image and no other; with names, every setting. */
#define _XOPEN_SOURCE 700

#include <inttypes.h>
#include <stdio.h>
#include <stdlib.h>
#include <string.h>
#include <unistd.h>

#include "changes.h"
#include "edition.h"
#include "files.h"
#include "json.h"
#include "json_names.h"
#include "json_sheet.h"
#include "messages.h"
#include "naming.h"
#include "pajurenda.h"
#include "show.h"

/* What a person reads first in it. */
static const char beginning[] =
	"# The text of a release sheet, for this image alone. A line sets bytes of the configuration region:\n"
	"#     OFFSET BYTES was BYTES          0x0128 00 was 01\n"
	"#     OFFSET = NUMBER : WIDTH         0x0060 = 0x0000EEFF : 4\n"
	"#     NAME = VALUE was VALUE          BypassRelay = Disabled was Enabled     (with --names)\n"
	"# by ascending offset. What stands after `was` must be what the image has now.\n";

/* Makers' files have settings of this length as numbers. */
static bool is_number(const struct label *label)
{
	return label->length == 2 || label->length == 4 || label->length == 8;
}

/* A choice's words, or the number, or the bytes, so that they read back as this value. */
static void put_entry_value(FILE *to, const struct label *label, const uint8_t *bytes)
{
	const char *words = names_words(label, bytes);
	uint8_t again[8];
	if (words != NULL && label->length <= sizeof again && strstr(words, "was") == NULL &&
	    strchr(words, '"') == NULL && names_value(label, words, again) == NAME_FOUND) {
		const char *quote = names_needs_quotes(words) ? "\"" : "";
		fprintf(to, "%s%s%s", quote, words, quote);
	} else if (is_number(label)) {
		put_number_of(to, "", bytes, label->length);
	} else {
		show_apart(to, bytes, label->length);
	}
}

/* A setting as a comment: without its # it sets what is there. */
static void put_setting(FILE *to, const struct naming *naming, const struct label *label,
			uint64_t region)
{
	const uint8_t *found = found_of(naming, label);
	if (found == NULL)
		return;
	fprintf(to, "# %s = ", label->name);
	put_entry_value(to, label, found);
	fputs(" was ", to);
	put_entry_value(to, label, found);
	fputs(" # ", to);
	show_offset(to, label->offset);
	fprintf(to, " at %" PRIu64 ", %" PRIu32 " byte%s", region + label->offset, label->length,
		label->length == 1 ? "" : "s");
	if (is_number(label)) {
		fputc(' ', to);
		show_apart(to, found, label->length);
	}
	if (label->title != NULL)
		fprintf(to, ", \"%s\"", label->title);
	fputc('\n', to);
}

/* The whole text. */
static void put_text(FILE *to, const struct naming *naming, const uint8_t *reading)
{
	fputs(beginning, to);
	put_naming(to, "# ", naming);
	show_bound(to, pajurenda_identity(reading), pajurenda_field(reading, PAJURENDA_READ_REVISION),
		   pajurenda_field(reading, PAJURENDA_READ_EXTENDED), " # version ");
	for (size_t i = 0; i < naming->names.count; i++)
		put_setting(to, naming, &naming->names.label[i],
			    pajurenda_field(reading, PAJURENDA_READ_REGION));
}

/* Its document. */
static void write_started(const struct naming *naming, const uint8_t *reading, const char *out)
{
	begin_document();
	json_text("out", out);
	json_answer(PAJURENDA_ACCEPTED, 0);
	json_bound(reading);
	json_naming(naming);
	end_json();
}

/* The text in memory, then in its place. */
static enum status save_text(const struct naming *naming, const uint8_t *reading, const char *out)
{
	char *at = NULL;
	size_t length = 0;
	FILE *to = open_memstream(&at, &length);
	if (to == NULL)
		return fail_no_memory(out);
	put_text(to, naming, reading);
	const bool whole = ferror(to) == 0, closed = fclose(to) == 0;
	const struct bytes text = { .at = (uint8_t *)at, .length = length };
	enum status status = whole && closed ? FINE : fail_no_memory(out);
	if (status == FINE && !save(out, &text))
		status = FAILED;
	free(at);
	if (status == FINE && is_json())
		write_started(naming, reading, out);
	else if (status == FINE)
		put_naming(stdout, "", naming);
	return status;
}

/* For a loaded image. */
static enum status start_text(const struct named *image, const char *out, const struct options *options)
{
	uint8_t reading[PAJURENDA_READ_BYTES] = { 0 };
	struct naming naming = { .file = { .name = NULL } };
	const uint32_t number = read_newer(&image->bytes, reading);
	if (number != PAJURENDA_ACCEPTED)
		return refuse_image(number, pajurenda_field(reading, PAJURENDA_READ_INDEX), image);
	const enum status status = load_naming(options, image, reading, &naming)
					   ? save_text(&naming, reading, out) : FAILED;
	end_naming(&naming);
	return status;
}

/* sheet start [--names FILE] IMAGE TEXT */
enum status do_sheet_start(char **word, const struct options *options)
{
	struct named image = { .name = word[0] };
	if (access(word[1], F_OK) == 0)
		return fail_usage("sheet start", "", word[1], " is there already: nothing is begun over it");
	if (!load(image.name, &image.bytes))
		return FAILED;
	const enum status status = start_text(&image, word[1], options);
	free(image.bytes.at);
	return status;
}
