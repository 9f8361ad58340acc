/* release IMAGE SHEET BASE OUT: the image with a sheet's settings, moved, written in one go with its record. */
#include <inttypes.h>
#include <stdbool.h>
#include <stdio.h>
#include <stdlib.h>

#include "hex_text.h"
#include "json.h"
#include "json_names.h"
#include "json_sheet.h"
#include "messages.h"
#include "pajurenda.h"
#include "releasing.h"
#include "volumes.h"
#include "vouched.h"

/* What a release shows: the base, how far it moved, how many entries of the sheet were set, each of them with
   what it replaced, and where that is recorded. */
static enum status show_release(const struct releasing *r, const uint8_t *answer)
{
	const struct bytes *sheet = &r->sheet.bytes;
	uint8_t judged[PAJURENDA_SHEET_BYTES] = { 0 };
	(void)pajurenda_sheet(sheet->at, sheet->length, judged, sizeof judged);
	put_naming(stdout, "", &r->naming);
	put_voucher(stdout, r->vouched);
	printf("base 0x%08" PRIX64 "\n", r->asking.base);
	printf("move %" PRId64 "\n", pajurenda_signed_field(answer, PAJURENDA_RELEASE_MOVE));
	printf("entries %" PRIu64 "\n", pajurenda_field(judged, PAJURENDA_SHEET_COUNT));
	if (show_changes(&r->before, sheet, names_of(&r->naming)) != FINE)
		return FAILED;
	if (r->record == NULL)
		return FINE;
	printf("record step %zu ", r->after.count + 1);
	put_name(stdout, r->record);
	putchar('\n');
	return FINE;
}

/* ---- what is written ---- */

/* OUT was IMAGE: nothing has its bytes any more; of the maker's own the record can't be played again. */
static void tell_replaced(const struct releasing *r)
{
	fputs("pajurenda: release: OUT is IMAGE itself: ", stderr);
	say_name(r->image.name);
	fputs(" as it was is replaced", stderr);
	if (r->record != NULL && r->after.name == NULL)
		fputs("; the record names it as the maker's image, and can be verified only with a copy of it", stderr);
	fputc('\n', stderr);
}

/* Its document: the same, and where it went. */
static enum status write_release(const struct releasing *r, const uint8_t *answer)
{
	begin_document();
	json_text("image", r->image.name);
	json_text("sheet", r->sheet.name);
	json_text("owners", r->list.name);
	json_number("owner", r->asking.owner);
	json_text("out", r->out);
	json_text("hex", r->hex);
	json_text("record", r->record);
	json_text("vouched", r->vouched);
	json_answer(PAJURENDA_ACCEPTED, 0);
	json_hex("base", 8, r->asking.base);
	json_signed("move", pajurenda_signed_field(answer, PAJURENDA_RELEASE_MOVE));
	json_naming(&r->naming);
	const enum status status = json_entries(&r->before, &r->sheet.bytes, names_of(&r->naming));
	end_json();
	return status;
}

/* The released image as Intel HEX at its base, where that is asked for; false after a message. */
static bool make_text(const struct releasing *r, struct output *text)
{
	if (text->name == NULL)
		return true;
	const uint32_t number = make_hex(&r->image.bytes, r->asking.base, &text->bytes);
	if (number != PAJURENDA_ACCEPTED)
		(void)(number == PAJURENDA_SHORT ? fail_no_memory(text->name) : fail_answer());
	return number == PAJURENDA_ACCEPTED;
}

/* The text, the record and the image put in place together, the image last: none stands there without its record.
   False after a message. */
static bool save_release(const struct releasing *r)
{
	struct output outputs[] = { { .name = r->hex }, { .name = r->record },
				    { .name = r->out, .bytes = r->image.bytes } };
	const bool in_place = is_same_file(r->image.name, r->out);
	const bool saved = make_text(r, &outputs[0]) && record_release(r, &outputs[1]) &&
			   save_together(outputs, 3);
	free(outputs[0].bytes.at);
	free(outputs[1].bytes.at);
	if (saved && in_place)
		tell_replaced(r);
	if (saved)
		tell_unwalked(r->image.name, &r->before);
	return saved;
}

/* ---- one release ---- */

/* The loaded image released and saved; told beside the image as it was. */
static enum status release_to(struct releasing *r)
{
	uint8_t answer[PAJURENDA_RELEASE_BYTES] = { 0 };
	r->asking.image = &r->image;
	r->asking.sheet = &r->sheet;
	r->asking.owners = &r->owners;
	r->asking.base = r->base.keep ? base_of(&r->image.bytes) : r->base.value;
	const uint32_t number = release_by(&r->image.bytes, &r->asking, answer);
	if (number != PAJURENDA_ACCEPTED)
		return refuse_release(number, &r->asking);
	(void)pajurenda_read(r->before.at, r->before.length, r->reading, sizeof r->reading);
	const struct named before = { .name = r->image.name, .bytes = r->before };
	if (!load_naming(r->options, &before, r->reading, &r->naming) || !save_release(r))
		return FAILED;
	return is_json() ? write_release(r, answer) : show_release(r, answer);
}

/* The owner list, as it is for its digest and as the library takes it; false after a message. */
static bool load_list(struct releasing *r)
{
	struct bytes copy;
	if (!load(r->list.name, &r->list.bytes))
		return false;
	if (!copy_bytes(&r->list.bytes, &copy)) {
		fail_no_memory(r->list.name);
		return false;
	}
	return take_owners(r->list.name, &copy, &r->owners);
}

/* IMAGE, or of a record before it the maker's image, is the one that was meant; false after a message. */
static bool is_makers(struct releasing *r)
{
	if (r->after.name == NULL)
		return vouch_for("release", r->options, &r->image, &r->vouched);
	return r->options->vendor == NULL || holds_maker(&r->after, r->options->vendor);
}

/* Every file loaded; false after a message. */
static bool load_files(struct releasing *r)
{
	if ((r->after.name != NULL && !load_record(r->after.name, &r->after)) ||
	    !load(r->image.name, &r->image.bytes) || !is_makers(r) || !load(r->sheet.name, &r->sheet.bytes) || !load_list(r))
		return false;
	if (!copy_bytes(&r->image.bytes, &r->before)) {
		fail_no_memory(r->image.name);
		return false;
	}
	return true;
}

/* The files loaded, released, and let go. */
static enum status release_files(struct releasing *r)
{
	const enum status status = load_files(r) && follows_record(r) ? release_to(r) : FAILED;
	end_naming(&r->naming);
	free_owners(&r->owners);
	free_record(&r->after);
	free(r->vouched);
	free(r->before.at);
	free(r->list.bytes.at);
	free(r->sheet.bytes.at);
	free(r->image.bytes.at);
	return status;
}

/* No list, or nobody who asks: what to type. */
static enum status fail_unowned(const struct options *options)
{
	const char *missing = options->owners != NULL  ? "--owner N is"
			      : options->owner != NULL ? "--owners LIST is"
						       : "--owners LIST and --owner N are";
	return fail_usage("release", "", missing,
			  " missing, so nothing is released: LIST says whose each setting is, N is 1 or "
			  "2, who releases; owners all IMAGE LIST writes the LIST that gives every "
			  "setting to owner 1");
}

/* release --owners LIST --owner N [--hex FILE] [--record FILE | --no-record] [--after RECORD] IMAGE SHEET BASE OUT */
enum status do_release(char **word, const struct options *options)
{
	struct releasing r = { .options = options, .image = { .name = word[0] }, .sheet = { .name = word[1] },
			       .list = { .name = options->owners }, .after = { .name = options->after },
			       .out = word[3], .hex = options->hex };
	if (options->owners == NULL || options->owner == NULL)
		return fail_unowned(options);
	if (!take_base("release", word[2], &r.base) ||
	    !take_number("release", "--owner", options->owner, &r.asking.owner) ||
	    !is_digest("release", options) || !name_record(&r))
		return FAILED;
	const enum status status =
		are_outputs_apart(&r) && are_outputs_free(&r) ? release_files(&r) : FAILED;
	free(r.record);
	return status;
}
