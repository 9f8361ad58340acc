#include "mend.h"

#include <stdlib.h>
#include <string.h>

#define STRAY UINT64_C(16777216)
#define EMPTY_SHEET 16

/* #102, #105: a sheet of the image's own identity that sets nothing. */
static void empty_sheet(const struct second_reading *r, uint8_t *sheet)
{
	memset(sheet, 0, EMPTY_SHEET);
	for (unsigned i = 0; i < 8; i++)
		sheet[i] = (uint8_t)(r->image_identity >> (8 * i));
	for (unsigned i = 0; i < 4; i++)
		sheet[8 + i] = (uint8_t)(r->revision >> (8 * i));
	for (unsigned i = 0; i < 2; i++)
		sheet[14 + i] = (uint8_t)(r->extended >> (8 * i));
}

/* "The audit": the reference is the vendor image released to the base with nothing to set, for which no owner needs a range. */
static uint8_t *reference_at(const uint8_t *vendor, uint64_t length, const struct second_reading *r, uint64_t base)
{
	uint8_t sheet[EMPTY_SHEET];
	const uint8_t no_owners[1] = { 0 };
	uint8_t *copy = malloc(length);

	if (copy == NULL)
		abort();
	memcpy(copy, vendor, length);
	empty_sheet(r, sheet);
	if (second_release(copy, length, sheet, EMPTY_SHEET, base, no_owners, 0, 1).number != 0)
		abort();
	return copy;
}

/* #110: each byte that the list calls a stray becomes the reference's; the settings of the list stay. */
static void put_back(uint8_t *shipped, const uint8_t *reference, const uint32_t *places, uint64_t count)
{
	for (uint64_t i = 0; i < count; i++)
		if (places[i] >= STRAY)
			shipped[places[i] - STRAY] = reference[places[i] - STRAY];
}

/* #110: the audit is asked first; its list says which bytes are to be put back. */
struct second_audited second_mend(const uint8_t *vendor, uint64_t vendor_length,
				  uint8_t *shipped, uint64_t shipped_length,
				  uint32_t *places, uint64_t places_count)
{
	const struct second_reading r = second_read(vendor, vendor_length);

	if (r.number != 0)
		return (struct second_audited){ .number = r.number, .index = r.index };
	if (r.component == 0)
		return (struct second_audited){ .number = 28 };
	const struct second_audited a =
		second_audit(vendor, vendor_length, shipped, shipped_length, places, places_count);
	if (a.number == 0) {
		uint8_t *reference = reference_at(vendor, vendor_length, &r, a.base);
		put_back(shipped, reference, places, a.settings + a.strays);
		free(reference);
	}
	return a;
}
