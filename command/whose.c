/* How the settings of an image are shared out by a list that the library took, for showing. */
#include "whose.h"

#include <inttypes.h>
#include <stdio.h>

#include "json_sheet.h"
#include "pajurenda.h"

/* The region in the line that `read` has. */
void show_region(const uint8_t *reading, const char *before)
{
	printf("%sregion c %" PRIu64 " z %" PRIu64 "\n", before,
	       pajurenda_field(reading, PAJURENDA_READ_REGION),
	       pajurenda_field(reading, PAJURENDA_READ_SIZE));
}

/* Its document's members: the region, each range with its positions, and the bytes of each. */
void write_shares(const struct bytes *list, const uint8_t *reading)
{
	const uint64_t region = pajurenda_field(reading, PAJURENDA_READ_REGION);
	uint64_t bytes[3] = { pajurenda_field(reading, PAJURENDA_READ_SIZE) - 32, 0, 0 };
	json_region(reading);
	fputs(",\n  \"ranges\": [", stdout);
	for (size_t i = 0; i < count_ranges(list); i++) {
		const struct owned range = range_at(list, i);
		printf("%s\n    {\"offset\": %" PRIu64 ", \"length\": %" PRIu64 ", \"owner\": %" PRIu64
		       ", \"first\": %" PRIu64 ", \"last\": %" PRIu64 "}", i == 0 ? "" : ",", range.offset, range.length,
		       range.owner, region + range.offset, region + range.offset + range.length - 1);
		bytes[range.owner == 1 ? 1 : 2] += range.length;
		bytes[0] -= range.length;
	}
	printf("%s]", count_ranges(list) == 0 ? "" : "\n  ");
	printf(",\n  \"bytes\": {\"owner_1\": %" PRIu64 ", \"owner_2\": %" PRIu64 ", \"nobody\": %" PRIu64 "}", bytes[1],
	       bytes[2], bytes[0]);
}

/* How many ranges there are, and how many bytes each owner and nobody has. */
void show_shares(const struct bytes *list, const uint8_t *reading, const char *before)
{
	const uint64_t settings = pajurenda_field(reading, PAJURENDA_READ_SIZE) - 32;
	const size_t count = count_ranges(list);
	uint64_t one = 0, both = 0;
	for (size_t i = 0; i < count; i++) {
		const struct owned range = range_at(list, i);
		one += range.owner == 1 ? range.length : 0;
		both += range.length;
	}
	printf("%sranges %zu, bytes of owner 1: %" PRIu64 ", of owner 2: %" PRIu64
	       ", of nobody: %" PRIu64 "\n", before, count, one, both - one, settings - both);
}
