/* sheet show SHEET [IMAGE]: a sheet as the text that `sheet make` takes; more stands in comments. */
#include <inttypes.h>
#include <stdbool.h>
#include <stdio.h>
#include <stdlib.h>

#include "changes.h"
#include "files.h"
#include "json.h"
#include "json_names.h"
#include "json_sheet.h"
#include "letters.h"
#include "messages.h"
#include "naming.h"
#include "released.h"
#include "sheets.h"
#include "show.h"

/* The sheet, the image if there is one, and how many entries would change it. */
struct showing {
	struct named sheet, image;
	struct naming naming;
	bool beside;
	uint64_t changing;
};

/* An entry taken apart: what it asks for, its bytes, and those that it would replace, NULL where there is
   no image. */
struct taken {
	uint64_t index;
	struct change change;
};

/* An entry of a sheet that the library has taken; false where the answer can't be the library's. */
static bool take_entry(struct showing *showing, uint64_t index, struct taken *taken)
{
	taken->index = index;
	if (!take_change(showing->beside ? &showing->image.bytes : NULL, &showing->sheet.bytes, index, &taken->change))
		return false;
	showing->changing += showing->beside && count_changed(&taken->change) != 0;
	return true;
}

/* ---- as a text ---- */

/* In a comment: position, both numbers, how much changes, and the names. */
static void show_comment(const struct showing *showing, const struct change *change)
{
	const uint64_t changed = count_changed(change);
	printf(" # at %" PRIu64, change->place);
	put_number_of(stdout, ", ", change->old, change->length);
	if (changed != 0)
		put_number_of(stdout, " -> ", change->new, change->length);
	if (changed == 0)
		fputs(", changes nothing", stdout);
	else
		printf(", changes %" PRIu64 " of %zu bytes", changed, change->length);
	put_names(stdout, names_of(&showing->naming), change, " -> ");
}

/* An entry's line: its offset and its bytes, and what they replace. */
static void show_entry(const struct showing *showing, const struct taken *taken)
{
	const struct change *change = &taken->change;
	show_offset(stdout, change->offset);
	putchar(' ');
	show_apart(stdout, change->new, change->length);
	if (change->old != NULL) {
		fputs(" was ", stdout);
		show_apart(stdout, change->old, change->length);
		show_comment(showing, change);
	}
	putchar('\n');
}

/* The whole text. */
static enum status show_text_of(struct showing *showing, const uint8_t *judged)
{
	const uint64_t count = pajurenda_field(judged, PAJURENDA_SHEET_COUNT);
	struct taken taken;
	put_naming(stdout, "# ", &showing->naming);
	show_head(judged, " # version ");
	for (uint64_t i = 0; i < count && ferror(stdout) == 0; i++) {
		if (!take_entry(showing, i, &taken))
			return fail_answer();
		show_entry(showing, &taken);
	}
	printf("# entries %" PRIu64, count);
	if (showing->beside)
		printf(", of which %" PRIu64 " would change the image", showing->changing);
	putchar('\n');
	return FINE;
}

/* ---- as a document ---- */

/* What an accepted sheet has. */
static enum status write_judged(const struct showing *showing, const uint8_t *judged)
{
	json_parts(pajurenda_sheet_identity(judged), pajurenda_field(judged, PAJURENDA_SHEET_REVISION),
		   pajurenda_field(judged, PAJURENDA_SHEET_EXTENDED));
	json_number("length", showing->sheet.bytes.length);
	json_naming(&showing->naming);
	return json_entries(showing->beside ? &showing->image.bytes : NULL, &showing->sheet.bytes,
			    names_of(&showing->naming));
}

/* The whole document, of a refused sheet too. */
static enum status write_sheet(struct showing *showing, uint32_t number, const uint8_t *judged)
{
	uint8_t reading[PAJURENDA_READ_BYTES] = { 0 };
	const struct bytes *image = &showing->image.bytes;
	if (showing->beside)
		(void)pajurenda_read(image->at, image->length, reading, sizeof reading);
	begin_json("sheet show");
	json_text("sheet", showing->sheet.name);
	json_text("image", showing->image.name);
	json_answer(number, pajurenda_field(reading, PAJURENDA_READ_INDEX));
	const enum status status =
		number == PAJURENDA_ACCEPTED ? write_judged(showing, judged) : FINE;
	end_json();
	return status;
}

/* ---- judged ---- */

/* The library's answer for the sheet at the image's own base, on a copy, which is lost; or
   PAJURENDA_SHORT for no memory. */
static uint32_t try_on_copy(const struct showing *showing, uint64_t base)
{
	struct bytes copy;
	if (!copy_bytes(&showing->image.bytes, &copy))
		return PAJURENDA_SHORT;
	uint8_t answer[PAJURENDA_RELEASE_BYTES] = { 0 };
	const uint32_t number = release_by_one(&copy, &showing->sheet.bytes, base, answer);
	free(copy.at);
	return number;
}

/* A refusal told: of the sheet for the image, or of the sheet by itself. */
static enum status refuse_shown(const struct showing *showing, uint32_t number, uint64_t base)
{
	const struct asking asking = { .image = &showing->image, .sheet = &showing->sheet,
				       .base = base };
	if (number == PAJURENDA_SHORT)
		return fail_no_memory(showing->image.name);
	if (showing->beside)
		return refuse_release(number, &asking);
	return number == PAJURENDA_SHEET ? refuse_sheet(&showing->sheet) : fail_answer();
}

/* The names of an image that the library has taken the sheet for; true where none are asked for. */
static bool name_settings(struct showing *showing, uint32_t number, const struct options *options)
{
	uint8_t reading[PAJURENDA_READ_BYTES] = { 0 };
	const struct bytes *image = &showing->image.bytes;
	if (options->names == NULL || number != PAJURENDA_ACCEPTED)
		return true;
	(void)pajurenda_read(image->at, image->length, reading, sizeof reading);
	return load_naming(options, &showing->image, reading, &showing->naming);
}

/* A loaded sheet judged and shown, beside a loaded image where there is one. */
static enum status show_sheet(struct showing *showing, const struct options *options)
{
	const bool json = (options->given & JSON) != 0;
	const struct bytes *sheet = &showing->sheet.bytes;
	const uint64_t base = showing->beside ? base_of(&showing->image.bytes) : 0;
	uint8_t judged[PAJURENDA_SHEET_BYTES] = { 0 };
	uint32_t number = showing->beside ? try_on_copy(showing, base) : PAJURENDA_ACCEPTED;
	if (number == PAJURENDA_ACCEPTED)
		number = pajurenda_sheet(sheet->at, sheet->length, judged, sizeof judged);
	keep_refusals(json);
	if (!name_settings(showing, number, options))
		return FAILED;
	if (number != PAJURENDA_ACCEPTED)
		(void)refuse_shown(showing, number, base);
	if (json && number != PAJURENDA_SHORT && write_sheet(showing, number, judged) != FINE)
		return FAILED;
	if (number != PAJURENDA_ACCEPTED)
		return FAILED;
	return json ? FINE : show_text_of(showing, judged);
}

/* sheet show [--json] [--names FILE] SHEET [IMAGE] */
enum status do_sheet_show(char **word, const struct options *options)
{
	struct showing showing = { .sheet = { .name = word[0] }, .image = { .name = word[1] },
				   .beside = word[1] != NULL };
	if (options->names != NULL && !showing.beside)
		return fail_usage("sheet show", "--names goes with IMAGE: names are held against its settings",
				  "", "");
	if (!load(showing.sheet.name, &showing.sheet.bytes))
		return FAILED;
	const enum status status =
		!showing.beside || load(showing.image.name, &showing.image.bytes)
			? show_sheet(&showing, options) : FAILED;
	end_naming(&showing.naming);
	free(showing.image.bytes.at);
	free(showing.sheet.bytes.at);
	return status;
}
