/* A sheet's entries in a document, and the parts of an image that several documents have. */
#include "json_sheet.h"

#include <inttypes.h>
#include <stdio.h>

#include "json.h"
#include "json_names.h"
#include "letters.h"
#include "messages.h"
#include "pajurenda.h"

/* An entry of a sheet that the library has taken: by itself, or beside an image; false where the answer can't be the
   library's. */
bool take_change(const struct bytes *image, const struct bytes *sheet, uint64_t index, struct change *change)
{
	const uint64_t at = PAJURENDA_EMPTY_SHEET + PAJURENDA_ENTRY_BYTES * index;
	const uint64_t body = number_at(sheet, at + 6, 2);
	*change = (struct change){ .offset = number_at(sheet, at, 4), .length = (size_t)number_at(sheet, at + 4, 2) };
	if (!has_bytes(sheet, body, change->length))
		return false;
	change->new = sheet->at + body;
	return image == NULL || entry_change(image, sheet, index, change);
}

/* An entry's object; where there is an image its place there, what it replaces, and its names. */
static void write_entry(const struct change *change, const struct names *names, const char *before)
{
	printf("%s\n    {\"offset\": %" PRIu64 ", \"length\": %zu, \"bytes\": ", before, change->offset, change->length);
	json_bytes(change->new, change->length);
	if (change->old != NULL) {
		fputs(", \"replaces\": ", stdout);
		json_bytes(change->old, change->length);
		printf(", \"changes\": %" PRIu64 ", \"place\": %" PRIu64, count_changed(change), change->place);
		json_names(names, change, "replaces", "bytes");
	}
	putchar('}');
}

/* Every entry of a sheet; the image may be NULL. */
enum status json_entries(const struct bytes *image, const struct bytes *sheet, const struct names *names)
{
	const uint64_t count = number_at(sheet, 12, 2);
	struct change change;
	fputs(",\n  \"entries\": [", stdout);
	for (uint64_t i = 0; i < count && ferror(stdout) == 0; i++) {
		if (!take_change(image, sheet, i, &change))
			return fail_answer();
		write_entry(&change, names, i == 0 ? "" : ",");
	}
	printf("%s]", count == 0 ? "" : "\n  ");
	return FINE;
}

/* The configuration region of an image that reads. */
void json_region(const uint8_t *reading)
{
	printf(",\n  \"region\": {\"place\": %" PRIu64 ", \"size\": %" PRIu64 "}",
	       pajurenda_field(reading, PAJURENDA_READ_REGION), pajurenda_field(reading, PAJURENDA_READ_SIZE));
}

/* What binds a text or a sheet to an image that reads. */
void json_bound(const uint8_t *reading)
{
	json_parts(pajurenda_identity(reading), pajurenda_field(reading, PAJURENDA_READ_REVISION),
		   pajurenda_field(reading, PAJURENDA_READ_EXTENDED));
}
