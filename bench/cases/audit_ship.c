/* The shipping of a vendor image into buffer 1, with a tally of the bytes turned in it. */
#include "audit_cases.h"
#include "../second/second.h"

#include <string.h>

static uint64_t settings, strays;

/* The image in the buffer as the vendor's, the shipped file being its move. */
void ship_built(uint64_t base)
{
	uint8_t empty[EMPTY_SHEET];
	empty_sheet(empty);
	memcpy(sheet, image, now.length);
	if (second_release(sheet, now.length, empty, EMPTY_SHEET, base, owners, own_all(), 1).number != 0)
		fail("a shipped file that can't be moved");
	settings = 0;
	strays = 0;
}

/* The planned image as the vendor's. */
void ship(uint64_t base)
{
	build();
	ship_built(base);
}

/* "The audit": one byte of the shipped file, not turned before, differs by a mask. */
void turn_byte(uint64_t at, uint64_t mask)
{
	put_sheet(at, 1, get_sheet(at, 1) ^ mask);
	if (at >= now.c + 32 && at < now.c + now.z)
		settings++;
	else
		strays++;
}

/* "The audit": the number of differences. */
uint64_t turned(void)
{
	return settings + strays;
}

/* An audit of the shipped file, the counts being those of the tally. */
void audit(uint64_t places, uint64_t number)
{
	show_audit(now.length, now.length, places, number, 0, settings, strays);
}

/* An audit with a list of exactly the right length. */
void audit_exact(void)
{
	audit(turned(), 0);
}

/* An audit of a shipped file that was changed in other ways. */
void audit_counting(uint64_t places)
{
	show_audit(now.length, now.length, places, 0, 0, ANY, ANY);
}

/* #110: what a mending of the shipped file is aimed at, by the tally; an accepted one leaves the settings alone. */
static struct mending aim(uint64_t list, uint64_t number)
{
	const struct mending mending = { .len = now.length, .other = now.length, .list = list, .number = number,
					 .settings = settings, .strays = strays };
	if (number == 0)
		strays = 0;
	return mending;
}

/* #110: a mending of the shipped file with a list of so many places. */
void put_back(uint64_t places, uint64_t number)
{
	const struct mending mending = aim(places, number);
	show_mend(&mending);
}

/* #110: the same with a list of so many bytes. */
void put_back_bytes(uint64_t bytes, uint64_t number)
{
	const struct mending mending = aim(bytes, number);
	show_mend_bytes(&mending);
}

/* #110: a mending with a list of exactly the right length, and the audit of what it leaves: the settings, and explained. */
void put_back_exact(void)
{
	const uint64_t before = explained;
	put_back(turned(), 0);
	audit_exact();
	if (explained != before + 1)
		fail("a mended file that isn't explained");
}
