/* Buffer 2: the owner list of #106. */
#include "cases.h"

uint8_t owners[OWNERS_SPACE];

/* Sources: all numbers are little-endian. */
static void put_owners(uint64_t at, uint64_t width, uint64_t value)
{
	if (at + width > OWNERS_SPACE)
		fail("a number outside the owner list");
	for (uint64_t i = 0; i < width; i++)
		owners[at + i] = (uint8_t)(value >> (8 * i));
}

/* #106: range i of the list. */
void put_range(uint64_t i, uint64_t offset, uint64_t length, uint64_t owner)
{
	put_owners(8 * i, 4, offset);
	put_owners(8 * i + 4, 2, length);
	put_owners(8 * i + 6, 2, owner);
}

/* #106: the planned image's settings are all owner 1's; gives the list's length, 0 where there is no setting. */
uint64_t own_all(void)
{
	if (now.z == 32)
		return 0;
	put_range(0, 32, now.z - 32, 1);
	return 8;
}
