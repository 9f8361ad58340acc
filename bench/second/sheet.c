#include "sheet.h"

#include "numbers.h"
#include "second.h"

/* "The release sheet": m entries of 8 bytes from 16 on. */
struct field second_sheet_field(const struct sheet *s, uint64_t i)
{
	const uint64_t at = 16 + 8 * i;
	return (struct field){
		.offset = little(s->bytes, at, 4),
		.length = little(s->bytes, at + 4, 2),
		.body = little(s->bytes, at + 6, 2),
	};
}

/* Refusal 15: lengths, running body positions, offsets in order, the last body ending the sheet. */
static bool refuse_fields(const struct sheet *s)
{
	uint64_t running = 16 + 8 * s->m, end = 0;
	if (running > s->length)
		return true;
	for (uint64_t i = 0; i < s->m; i++) {
		const struct field field = second_sheet_field(s, i);
		if (field.length == 0 || field.body != running || field.offset < end)
			return true;
		running += field.length;
		end = field.offset + field.length;
	}
	return running != s->length;
}

/* Refusal 15. */
bool second_sheet_refused(struct sheet *s)
{
	if (s->length < 16 || s->length > 65535)
		return true;
	s->m = little(s->bytes, 12, 2);
	return s->m > 256 || refuse_fields(s);
}

/* #102: the identity that a sheet carries; bytes 14..15 are 0 in an older one. */
struct identity second_sheet_identity(const struct sheet *s)
{
	return (struct identity){
		.image = little(s->bytes, 0, 8),
		.revision = little(s->bytes, 8, 4),
		.extended = little(s->bytes, 14, 2),
	};
}

/* #105: a sheet by itself, for no image: 15 is all there is to judge. */
struct second_judged second_sheet(const uint8_t *sheet, uint64_t sheet_length)
{
	struct sheet s = { .bytes = sheet, .length = sheet_length };

	if (second_sheet_refused(&s))
		return (struct second_judged){ .number = 15 };
	const struct identity identity = second_sheet_identity(&s);
	return (struct second_judged){
		.count = s.m,
		.image_identity = identity.image,
		.revision = identity.revision,
		.extended = identity.extended,
	};
}
