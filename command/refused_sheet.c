/* Refusals 15 to 17 in words: what the sheet says, beside what the image has. */
#include <inttypes.h>
#include <stdbool.h>
#include <stdio.h>
#include <string.h>

#include "letters.h"
#include "messages.h"
#include "pajurenda.h"
#include "refusals.h"
#include "show.h"

/* A sheet's first entries: how many were looked at, and what they lead to expect of the next. */
struct row {
	uint64_t index;
	uint64_t offset, length, body;
	uint64_t end;     /* where the entry before ends in the region */
	uint64_t running; /* where the entry before ends in the sheet */
};

/* The next entry of a row; false where the sheet has no bytes for it. */
static bool take_entry(const struct bytes *sheet, struct row *row)
{
	const uint64_t at = 16 + 8 * row->index;
	row->offset = number_at(sheet, at, 4);
	row->length = number_at(sheet, at + 4, 2);
	row->body = number_at(sheet, at + 6, 2);
	return has_bytes(sheet, at, 8);
}

/* The first entry that does not follow the one before it, or the row's end where all do: what to
   show of a sheet that the library has refused. */
static struct row first_odd(const struct bytes *sheet, uint64_t count)
{
	struct row row = { .running = 16 + 8 * count };
	while (row.index < count && take_entry(sheet, &row)) {
		if (row.length == 0 || row.body != row.running || row.offset < row.end)
			break;
		row.end = row.offset + row.length;
		row.running += row.length;
		row.index++;
	}
	return row;
}

/* What the first odd entry says, or where the bodies of all entries end. */
static void say_row(const struct bytes *sheet, uint64_t count)
{
	const struct row row = first_odd(sheet, count);
	if (row.index == count) {
		fprintf(saying(), ", the last body ends at %" PRIu64, row.running);
		return;
	}
	fprintf(saying(), ", entry %" PRIu64 " (counted from 0) ", row.index);
	if (!has_bytes(sheet, 16 + 8 * row.index, 8)) {
		fputs("is cut short", saying());
		return;
	}
	fprintf(saying(), "has offset 0x%04" PRIX64 " (the one before ends at 0x%04" PRIX64 ")", row.offset,
		row.end);
	fprintf(saying(), ", length %" PRIu64 ", body at %" PRIu64 " (the one before ends at %" PRIu64
		")", row.length, row.body, row.running);
}

/* A text was given for a sheet: no sheet has text where its count stands. */
static bool is_text(const struct bytes *file)
{
	const size_t count = file->length < 16 ? file->length : 16;
	for (size_t i = 0; i < count; i++)
		if (!is_printable(file->at + i, 1) && memchr("\t\n\r", file->at[i], 3) == NULL)
			return false;
	return count > 0;
}

/* 15: length, count, and the entries as far as they follow each other. */
enum status refuse_sheet(const struct named *sheet)
{
	const struct bytes *bytes = &sheet->bytes;
	const uint64_t count = number_at(bytes, 12, 2);
	begin_refusal(PAJURENDA_SHEET, sheet->name);
	say_rule(PAJURENDA_SHEET);
	fputs("the file has ", saying());
	say_length(bytes);
	if (has_bytes(bytes, 0, 16)) {
		fprintf(saying(), ", m %" PRIu64, count);
		say_row(bytes, count);
	}
	if (is_text(bytes))
		fputs(", and it is text: sheet make makes a sheet of it", saying());
	return end_refusal();
}

/* The three parts of an identity as `read` has them, and the version they make. */
static void say_identity(const uint8_t *identity, uint64_t revision, uint64_t extended)
{
	show_identity(saying(), identity);
	fprintf(saying(), " revision 0x%08" PRIX64 " extended 0x%04" PRIX64 " version ", revision,
		extended);
	show_image_version(saying(), revision, extended);
}

/* 16: what the sheet is for, and what the image is, alike in form: the part that differs is seen. */
enum status refuse_identity(const struct named *sheet, const struct named *image,
			    const uint8_t *reading)
{
	begin_refusal(PAJURENDA_IDENTITY, sheet->name);
	say_rule(PAJURENDA_IDENTITY);
	fputs("the sheet is for ", saying());
	if (has_bytes(&sheet->bytes, 0, 16))
		say_identity(sheet->bytes.at, number_at(&sheet->bytes, 8, 4),
			     number_at(&sheet->bytes, 14, 2));
	fputs(", ", saying());
	put_name(saying(), image->name);
	fputs(" is ", saying());
	say_identity(pajurenda_identity(reading), pajurenda_field(reading, PAJURENDA_READ_REVISION),
		     pajurenda_field(reading, PAJURENDA_READ_EXTENDED));
	return end_refusal();
}

/* What was asked for, and how far the settings go. */
static enum status end_field(const struct asked *asked, uint64_t size)
{
	fprintf(saying(), "offset 0x%04" PRIX64 " length %" PRIu64 ", the region's size z is 0x%04" PRIX64,
		asked->offset, asked->length, size);
	return end_refusal();
}

/* 17 of a sheet: the first entry that the library does not find in the image. */
enum status refuse_entry(const struct named *sheet, const struct asked *asked, uint64_t size)
{
	begin_refusal(PAJURENDA_FIELD, sheet->name);
	say_rule(PAJURENDA_FIELD);
	fprintf(saying(), "entry %" PRIu64 " (counted from 0) has ", asked->index);
	return end_field(asked, size);
}

/* 17 of one setting. */
enum status refuse_setting(const struct named *image, const struct asked *asked, uint64_t size)
{
	begin_refusal(PAJURENDA_FIELD, image->name);
	say_rule(PAJURENDA_FIELD);
	return end_field(asked, size);
}
