/* A release asked of the library, and its refusals: which file each is about, and its values. */
#include "released.h"

#include "edition.h"
#include "letters.h"
#include "messages.h"
#include "pajurenda.h"
#include "trial.h"

/* The image released in place, by an answer of PAJURENDA_RELEASE_BYTES; the answer's number. */
uint32_t release_by(struct bytes *image, const struct asking *asking, uint8_t *answer)
{
	const struct bytes *sheet = &asking->sheet->bytes, *list = &asking->owners->list;
	return pajurenda_release(image->at, image->length, sheet->at, sheet->length, asking->base,
				 list->at, list->length, asking->owner, answer,
				 PAJURENDA_RELEASE_BYTES);
}

/* The same where whose the settings are has no say: by owner 1, with the list that gives it all. An
   image that doesn't read has its own refusal, whatever the list. */
uint32_t release_by_one(struct bytes *image, const struct bytes *sheet, uint64_t base,
			uint8_t *answer)
{
	uint8_t reading[PAJURENDA_READ_BYTES] = { 0 }, list[PAJURENDA_RANGE_BYTES];
	(void)pajurenda_read(image->at, image->length, reading, sizeof reading);
	const size_t length = pajurenda_one_owner(reading, 1, list);
	return pajurenda_release(image->at, image->length, sheet->at, sheet->length, base, list,
				 length, 1, answer, PAJURENDA_RELEASE_BYTES);
}

/* The base of an image; 0 where it has none, and then the release has the image's own refusal. */
uint64_t base_of(const struct bytes *image)
{
	uint8_t reading[PAJURENDA_READ_BYTES] = { 0 };
	(void)pajurenda_read(image->at, image->length, reading, sizeof reading);
	return pajurenda_field(reading, PAJURENDA_READ_BASE);
}

/* 17: the first entry that the library does not find as a setting of the image. */
static enum status refuse_first_entry(const struct named *image, const struct named *sheet,
				      uint64_t size)
{
	uint8_t answer[PAJURENDA_SETTING_BYTES] = { 0 };
	for (uint64_t i = 0; i < number_at(&sheet->bytes, 12, 2); i++) {
		const uint64_t at = PAJURENDA_EMPTY_SHEET + PAJURENDA_ENTRY_BYTES * i;
		const struct asked asked = { .index = i,
					     .offset = number_at(&sheet->bytes, at, 4),
					     .length = number_at(&sheet->bytes, at + 4, 2) };
		if (pajurenda_setting(image->bytes.at, image->bytes.length, asked.offset,
				      asked.length, answer, sizeof answer) == PAJURENDA_FIELD)
			return refuse_entry(sheet, &asked, size);
	}
	return fail_answer();
}

/* A refusal of sheet, list or base, by the image's reading. */
static enum status refuse_asked(uint32_t number, const struct asking *asking,
				const uint8_t *reading)
{
	const struct named *image = asking->image, *sheet = asking->sheet;
	switch (number) {
	case PAJURENDA_SHEET: return refuse_sheet(sheet);
	case PAJURENDA_OWNERS:
		return asking->owners == NULL ? fail_answer() : refuse_list(asking);
	case PAJURENDA_IDENTITY: return refuse_identity(sheet, image, reading);
	case PAJURENDA_FIELD:
		return refuse_first_entry(image, sheet,
					  pajurenda_field(reading, PAJURENDA_READ_SIZE));
	case PAJURENDA_OWNER:
		return asking->owners == NULL ? fail_answer() : refuse_foreign(asking);
	case PAJURENDA_NEWBASE: return refuse_new_base(image, asking->base);
	default: return fail_answer();
	}
}

/* A release's refusal; a refused image is as it was, so its reading still has the values. */
enum status refuse_release(uint32_t number, const struct asking *asking)
{
	const struct named *image = asking->image;
	uint8_t reading[PAJURENDA_READ_BYTES] = { 0 };
	const uint32_t own = read_newer(&image->bytes, reading);
	return own == PAJURENDA_ACCEPTED
		       ? refuse_asked(number, asking, reading)
		       : refuse_image(own, pajurenda_field(reading, PAJURENDA_READ_INDEX), image);
}
