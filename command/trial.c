/*
 * Lists and sheets tried on a copy of an image, to find what 23 and 24 are about. The library is asked
 * about more and more of the list or the sheet: what it refuses first is at fault.
 */
#include "trial.h"

#include <stdlib.h>
#include <string.h>

#include "edition.h"
#include "files.h"
#include "letters.h"
#include "messages.h"
#include "sheets.h"

/* A copy of an image that reads, and its reading; false after a message or the image's refusal. */
bool begin_trial(const struct named *image, struct trial *trial)
{
	memset(trial->reading, 0, sizeof trial->reading);
	const uint32_t number = read_newer(&image->bytes, trial->reading);
	if (number != PAJURENDA_ACCEPTED) {
		refuse_image(number, pajurenda_field(trial->reading, PAJURENDA_READ_INDEX), image);
		return false;
	}
	if (!copy_bytes(&image->bytes, &trial->copy)) {
		fail_no_memory(image->name);
		return false;
	}
	return true;
}

/* The library's answer to a sheet and a list, at the image's own base. */
static uint32_t try_both(struct trial *trial, const struct bytes *sheet, const struct bytes *list,
			 uint64_t owner)
{
	uint8_t answer[PAJURENDA_RELEASE_BYTES] = { 0 };
	return pajurenda_release(trial->copy.at, trial->copy.length, sheet->at, sheet->length,
				 pajurenda_field(trial->reading, PAJURENDA_READ_BASE), list->at,
				 list->length, owner, answer, sizeof answer);
}

/* The library's answer to a list alone: the empty sheet sets nothing. */
uint32_t try_list(struct trial *trial, const struct bytes *list, uint64_t owner)
{
	uint8_t empty[PAJURENDA_EMPTY_SHEET];
	const struct bytes sheet = { .at = empty, .length = sizeof empty };
	pajurenda_empty_sheet(trial->reading, empty);
	return try_both(trial, &sheet, list, owner);
}

/* ---- 23 ---- */

/* How many ranges from the first on the library takes, whoever asks. */
static size_t count_taken(struct trial *trial, const struct bytes *list)
{
	struct bytes first = *list;
	size_t count = 0;
	for (; count < count_ranges(list); count++) {
		first.length = PAJURENDA_RANGE_BYTES * (count + 1);
		if (try_list(trial, &first, 1) != PAJURENDA_ACCEPTED)
			break;
	}
	return count;
}

/* 23: the first range with which the list is refused, else the bytes after the last, else who asks. */
static enum status refuse_part(struct trial *trial, const struct owners *owners, uint64_t owner)
{
	const size_t count = count_taken(trial, &owners->list);
	if (count < count_ranges(&owners->list))
		return refuse_range(owners, count,
				    pajurenda_field(trial->reading, PAJURENDA_READ_SIZE));
	if (try_list(trial, &owners->list, 1) == PAJURENDA_OWNERS)
		return refuse_rest(owners);
	return try_list(trial, &owners->list, owner) == PAJURENDA_OWNERS
		       ? refuse_caller(owners, owner) : fail_answer();
}

/* 23 of a release, or of a list shown beside an image. */
enum status refuse_list(const struct asking *asking)
{
	struct trial trial;
	if (!begin_trial(asking->image, &trial))
		return FAILED;
	const enum status status = refuse_part(&trial, asking->owners, asking->owner);
	free(trial.copy.at);
	return status;
}

/* ---- 24 ---- */

/* A sheet cut off after so many bytes of its bodies, as a draft: only where they go has a say in 24, so
   they stay 0. The sheet's own form is as it must be, since 15 comes before 24. */
static void cut_sheet(struct draft *draft, const struct bytes *sheet, size_t bytes)
{
	const uint64_t entries = number_at(sheet, 12, 2);
	memcpy(draft->head, sheet->at, sizeof draft->head);
	draft->count = 0;
	draft->filled = 0;
	for (uint64_t i = 0; i < entries && draft->filled < bytes && draft->count < MOST_ENTRIES; i++) {
		const uint64_t at = PAJURENDA_EMPTY_SHEET + PAJURENDA_ENTRY_BYTES * i;
		const size_t length = (size_t)number_at(sheet, at + 4, 2);
		const size_t left = bytes - draft->filled;
		struct entry *entry = &draft->entry[draft->count++];
		*entry = (struct entry){ .offset = number_at(sheet, at, 4),
					 .length = length < left ? length : left };
		draft->filled += entry->length;
	}
}

/* The bytes of a sheet's bodies, as many as stand after the entries. */
static size_t count_bodies(const struct bytes *sheet)
{
	const uint64_t before = PAJURENDA_EMPTY_SHEET +
				PAJURENDA_ENTRY_BYTES * number_at(sheet, 12, 2);
	return before <= sheet->length && sheet->length <= PAJURENDA_MOST_SHEET
		       ? sheet->length - (size_t)before : 0;
}

/* The draft becomes the sheet up to the first byte that the library refuses: with it the sheet is
   refused, without it it isn't, and so it is with more and fewer bytes. */
static void cut_at_fault(struct trial *trial, const struct asking *asking, struct draft *draft)
{
	size_t taken = 0, refused = count_bodies(&asking->sheet->bytes);
	while (refused - taken > 1) {
		const size_t middle = taken + (refused - taken) / 2;
		cut_sheet(draft, &asking->sheet->bytes, middle);
		const struct bytes sheet = lay_out(draft);
		if (try_both(trial, &sheet, &asking->owners->list, asking->owner) == PAJURENDA_OWNER)
			refused = middle;
		else
			taken = middle;
	}
	cut_sheet(draft, &asking->sheet->bytes, refused);
}

/* 24: the entry whose last byte, as it is cut, is at fault, and whose that byte is. */
static enum status refuse_last_byte(const struct asking *asking, const struct draft *draft)
{
	if (draft->count == 0)
		return fail_answer();
	const struct entry *last = &draft->entry[draft->count - 1];
	const uint64_t at = PAJURENDA_EMPTY_SHEET + PAJURENDA_ENTRY_BYTES * (draft->count - 1);
	const struct asked asked = { .index = draft->count - 1, .offset = last->offset,
				     .length = number_at(&asking->sheet->bytes, at + 4, 2) };
	return refuse_byte(asking->sheet, &asked, last->offset + last->length - 1, asking->owners,
			   asking->owner);
}

/* 24 of a release. */
enum status refuse_foreign(const struct asking *asking)
{
	struct trial trial;
	struct draft *draft = calloc(1, sizeof *draft);
	if (draft == NULL)
		return fail_no_memory(asking->sheet->name);
	if (!begin_trial(asking->image, &trial)) {
		free(draft);
		return FAILED;
	}
	cut_at_fault(&trial, asking, draft);
	const enum status status = refuse_last_byte(asking, draft);
	free(trial.copy.at);
	free(draft);
	return status;
}
