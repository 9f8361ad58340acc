/* The vendor's image of the pairs that the audit's program is run on. */
#include "pair_vendor.h"

#include "cases.h"

/* A region of 400 bytes at 4,096 and four words, one of them at the very end, on what is planned. */
void build_vendor(void)
{
	const uint64_t place[] = { 4498, 4998, 6001, now.length - 4 };
	static const uint64_t value[] = { 0xFFF80040, 0x12345678, 0xFFFFFFFC, 0xFFF81FF0 };
	now.n = COUNT(place);
	settle();
	now.c = 4096;
	now.z = 400;
	for (uint64_t k = 0; k < now.n; k++)
		now.entry[k] = word(place[k], k >= 2, k >= 2 ? 15 : 0);
	build();
	for (uint64_t k = 0; k < now.n; k++)
		put(place[k], 4, value[k]);
	for (uint64_t at = now.c + 8; at < now.c + now.z; at++)
		put(at, 1, at * 37 + 11);
}
