/* Release sheets laid out, saved and shown; the library judges them. */
#include "sheets.h"

#include <inttypes.h>
#include <stdio.h>
#include <string.h>

#include "files.h"
#include "json.h"
#include "json_names.h"
#include "json_sheet.h"
#include "messages.h"
#include "released.h"
#include "show.h"

/* ---- a draft ---- */

/* An entry after the others, still without a byte; false where there is no room. */
bool add_entry(struct draft *draft, uint64_t offset)
{
	if (draft->count == MOST_ENTRIES)
		return false;
	draft->entry[draft->count++] = (struct entry){ .offset = offset };
	return true;
}

/* A byte more for the last entry; false where its length or the draft can't hold it. */
bool add_byte(struct draft *draft, uint8_t byte)
{
	struct entry *last = &draft->entry[draft->count - 1];
	if (last->length == MOST_BODY || draft->filled == MOST_BODIES)
		return false;
	last->length++;
	draft->bodies[draft->filled++] = byte;
	return true;
}

/* A number of so many bytes, little-endian; what is above them is cut off. */
void put_number(uint8_t *at, size_t width, uint64_t value)
{
	for (size_t i = 0; i < width; i++)
		at[i] = (uint8_t)(value >> (8 * i));
}

/*
 * The sheet as it stands in a file. A body's position that its field cuts off lies past the longest
 * sheet, so the library refuses such a sheet for its length.
 */
struct bytes lay_out(struct draft *draft)
{
	const size_t contents = PAJURENDA_EMPTY_SHEET + PAJURENDA_ENTRY_BYTES * draft->count;
	size_t body = contents;
	memcpy(draft->sheet, draft->head, sizeof draft->head);
	put_number(draft->sheet + 12, 2, draft->count);
	for (size_t i = 0; i < draft->count; i++) {
		uint8_t *at = draft->sheet + PAJURENDA_EMPTY_SHEET + PAJURENDA_ENTRY_BYTES * i;
		put_number(at, 4, draft->entry[i].offset);
		put_number(at + 4, 2, draft->entry[i].length);
		put_number(at + 6, 2, body);
		body += draft->entry[i].length;
	}
	memcpy(draft->sheet + contents, draft->bodies, draft->filled);
	return (struct bytes){ .at = draft->sheet, .length = contents + draft->filled };
}

/* ---- whole sheets ---- */

/* Which image a sheet is for, by the answer of pajurenda_sheet. */
void show_head(const uint8_t *judged, const char *before)
{
	show_bound(stdout, pajurenda_sheet_identity(judged),
		   pajurenda_field(judged, PAJURENDA_SHEET_REVISION),
		   pajurenda_field(judged, PAJURENDA_SHEET_EXTENDED), before);
}

/* Its document, up to its end: what the sheet is for, and each entry with what it replaces. */
static enum status write_sheet(const char *out, const struct bytes *sheet, const uint8_t *judged,
			       const struct naming *naming, const struct bytes *image)
{
	begin_document();
	json_text("out", out);
	json_answer(PAJURENDA_ACCEPTED, 0);
	json_parts(pajurenda_sheet_identity(judged), pajurenda_field(judged, PAJURENDA_SHEET_REVISION),
		   pajurenda_field(judged, PAJURENDA_SHEET_EXTENDED));
	json_number("length", sheet->length);
	if (naming != NULL)
		json_naming(naming);
	else
		json_text("names", NULL);
	return json_entries(image, sheet, naming == NULL ? NULL : names_of(naming));
}

/* A sheet that the library has accepted for its image, written and told; names, where there are some,
   first. A document can go on. */
enum status save_open_sheet(const char *out, const struct bytes *sheet, const struct naming *naming,
			    const struct bytes *image)
{
	uint8_t judged[PAJURENDA_SHEET_BYTES] = { 0 };
	if (pajurenda_sheet(sheet->at, sheet->length, judged, sizeof judged) != PAJURENDA_ACCEPTED)
		return fail_answer();
	if (!save(out, sheet))
		return FAILED;
	if (is_json())
		return write_sheet(out, sheet, judged, naming, image);
	if (naming != NULL)
		put_naming(stdout, "", naming);
	show_head(judged, "\nversion ");
	printf("entries %" PRIu64 "\n", pajurenda_field(judged, PAJURENDA_SHEET_COUNT));
	printf("length %zu\n", sheet->length);
	return FINE;
}

/* The same, and nothing more. */
enum status save_sheet(const char *out, const struct bytes *sheet, const struct naming *naming,
		       const struct bytes *image)
{
	const enum status status = save_open_sheet(out, sheet, naming, image);
	if (status == FINE && is_json())
		end_json();
	return status;
}

/* An image that was read, moved with its empty sheet, by an answer of PAJURENDA_RELEASE_BYTES; false where the
   library does not take it. */
bool move_read(struct bytes *image, const uint8_t *reading, uint64_t base, uint8_t *answer)
{
	uint8_t empty[PAJURENDA_EMPTY_SHEET], list[PAJURENDA_RANGE_BYTES];
	pajurenda_empty_sheet(reading, empty);
	const size_t length = pajurenda_one_owner(reading, 1, list);
	return pajurenda_release(image->at, image->length, empty, sizeof empty, base, list, length, 1, answer,
				 PAJURENDA_RELEASE_BYTES) == PAJURENDA_ACCEPTED;
}

/* The same of one that wasn't read yet. */
bool move_alone(struct bytes *image, uint64_t base, uint8_t *answer)
{
	uint8_t reading[PAJURENDA_READ_BYTES] = { 0 };
	return pajurenda_read(image->at, image->length, reading, sizeof reading) == PAJURENDA_ACCEPTED &&
	       move_read(image, reading, base, answer);
}
