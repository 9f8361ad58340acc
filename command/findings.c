/* An audit asked of the library, with a list as long as it must be. */
#include "findings.h"

#include <stdlib.h>

#define FIRST_PLACES ((size_t)256)

/* How many differences there are. */
uint64_t differences(const struct findings *findings)
{
	return pajurenda_field(findings->answer, PAJURENDA_AUDIT_SETTINGS) +
	       pajurenda_field(findings->answer, PAJURENDA_AUDIT_STRAYS);
}

/* The audit with a list of so many places; the answer's number, or PAJURENDA_SHORT for no memory. */
static uint32_t find_with(const struct bytes *vendor, const struct bytes *shipped,
			  struct findings *findings, size_t count)
{
	const size_t length = count * PAJURENDA_PLACE_BYTES;
	uint8_t *places = realloc(findings->places, length);
	if (places == NULL)
		return PAJURENDA_SHORT;
	findings->places = places;
	return pajurenda_audit(vendor->at, vendor->length, shipped->at, shipped->length, places,
			       length, findings->answer, sizeof findings->answer);
}

/* The audit, asked again with the list that refusal 20 names. */
uint32_t find_differences(const struct bytes *vendor, const struct bytes *shipped,
			  struct findings *findings)
{
	const uint32_t number = find_with(vendor, shipped, findings, FIRST_PLACES);
	if (number != PAJURENDA_ROOM || differences(findings) > PAJURENDA_MOST_IMAGE)
		return number;
	return find_with(vendor, shipped, findings, (size_t)differences(findings));
}
