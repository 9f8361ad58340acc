/* What the sheets make of each byte of the region, for showing: which entry sets it last, and what the
   two audits say of it. */
#include <stdlib.h>

#include "checked.h"
#include "letters.h"
#include "messages.h"

/* An entry's bytes are this sheet's now. */
static void settle_entry(struct check *check, size_t sheet, uint64_t entry)
{
	const struct bytes *bytes = &check->sheets[sheet].bytes;
	const uint64_t at = PAJURENDA_EMPTY_SHEET + PAJURENDA_ENTRY_BYTES * entry;
	const uint64_t size = pajurenda_field(check->reading, PAJURENDA_READ_SIZE);
	const uint64_t offset = number_at(bytes, at, 4), length = number_at(bytes, at + 4, 2);
	for (uint64_t k = 0; k < length && offset + k < size; k++) {
		check->settled[offset + k].sheet = (uint32_t)sheet + 1;
		check->settled[offset + k].entry = (uint32_t)entry;
	}
}

/* All entries of a sheet that the library has taken. */
static void settle_sheet(struct check *check, size_t sheet)
{
	const uint64_t count = number_at(&check->sheets[sheet].bytes, 12, 2);
	for (uint64_t entry = 0; entry < count; entry++)
		settle_entry(check, sheet, entry);
}

/* The byte of the region that the i-th place of a list names as a setting; NULL where it is none. */
static struct settled *setting_of(struct check *check, const struct findings *findings, uint64_t i)
{
	const uint32_t place = pajurenda_place(findings->places, (size_t)i);
	const uint64_t region = pajurenda_field(check->reading, PAJURENDA_READ_REGION);
	const uint64_t size = pajurenda_field(check->reading, PAJURENDA_READ_SIZE);
	const uint64_t at = pajurenda_position(place);
	if (pajurenda_is_stray(place) || at < region || at - region >= size)
		return NULL;
	return &check->settled[at - region];
}

/* The audit against the release names the bytes that differ from it. */
static void settle_differing(struct check *check)
{
	const uint64_t count = differences(&check->found);
	for (uint64_t i = 0; i < count; i++) {
		struct settled *setting = setting_of(check, &check->found, i);
		if (setting != NULL)
			setting->differs = true;
	}
}

/* The audit against the vendor's image names those that are not the maker's any more. */
static void settle_changed(struct check *check)
{
	const uint64_t count = differences(&check->from_vendor);
	for (uint64_t i = 0; i < count; i++) {
		struct settled *setting = setting_of(check, &check->from_vendor, i);
		if (setting != NULL)
			setting->changed = true;
	}
}

/* All of it. */
enum status settle(struct check *check)
{
	const size_t size = (size_t)pajurenda_field(check->reading, PAJURENDA_READ_SIZE);
	check->settled = calloc(size + 1, sizeof *check->settled);
	if (check->settled == NULL)
		return fail_no_memory(check->vendor.name);
	for (size_t sheet = 0; sheet < check->sheet_count; sheet++)
		settle_sheet(check, sheet);
	settle_differing(check);
	settle_changed(check);
	return FINE;
}

/* As released by the sheets, and explained against the maker's image by the library's word: then the theorem on any
   sequence of releases says that the move and the sheets account for every byte. */
bool is_accounted(const struct check *check)
{
	return check->verify && is_good(check) &&
	       pajurenda_field(check->from_vendor.answer, PAJURENDA_AUDIT_EXPLAINED) == 1;
}
