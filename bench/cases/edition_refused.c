/* #109: settings and releases of edition 1 images: the reading's own refusals, then 28 before any other, and nothing changed. */
#include "edition_cases.h"

/* Images of edition 1: short ones, and ones of edition 2 that say so. */
static void older_image(unsigned i)
{
	edition_start(i == 0 ? 64 : 80 + i, i % 2 == 0 ? SHORT_L : LONG_L);
	older.c = i % 3 == 0 ? 0xFFFFFFFF : 120;
	older.z = i % 3 == 1 ? 0xFFFFFFFF : 40;
	edition_build();
	if (i < 4)
		return;
	small(i % SMALLS);
	build();
	edition_turn(i % 2 == 0 ? SHORT_L : LONG_L);
}

/* "One setting": 28 whatever is asked for, before 17. */
void setting_editions(void)
{
	static const uint64_t part[][2] = {
		{ 32, 1 }, { 40, 2 }, { 0, 1 }, { 32, 0 }, { UINT64_MAX, UINT64_MAX }, { TWO32, 1 }, { 31, 8 }, { 65536, 1 },
	};
	for (unsigned i = 0; i < 8; i++) {
		for (size_t j = 0; j < COUNT(part); j++) {
			older_image(i);
			show_setting(now.length, part[j][0], part[j][1], 28);
		}
		put(spot.H + 24, 1, get(spot.H + 24, 1) ^ 1);
		show_setting(now.length, 32, 1, 6);
		older_image(i);
		put(spot.H + 28, 1, 1);
		show_setting(now.length, 32, 1, 8);
		put(spot.H + 11, 1, 2);
		show_setting(now.length, 32, 1, ANY);
	}
}

/* An edition 1 image, an empty sheet of its identity. */
static void release_start(unsigned i)
{
	older_image(i);
	empty_sheet(sheet);
}

/* The release: 28 before 15, 23, 16, 17, 24 and 18, each of these at fault alone and all of them. */
static void release_older(unsigned i)
{
	release_start(i);
	show_release(now.length, EMPTY_SHEET, now.base, 28, 0);
	show_release(now.length, EMPTY_SHEET, 0x00100000, 28, 0);
	show_release(now.length, EMPTY_SHEET - 1, now.base, 28, 0);
	show_release(now.length, EMPTY_SHEET, 0x00100001, 28, 0);
	show_release(now.length, EMPTY_SHEET, UINT64_MAX, 28, 0);
	put_sheet(0, 1, 'X');
	show_release(now.length, EMPTY_SHEET, now.base, 28, 0);
	const uint64_t all = own_all();
	show_owned(&(struct release){ .len = now.length, .other = EMPTY_SHEET, .list = all, .base = 0, .caller = 2 }, 28, 0);
	show_owned(&(struct release){ .len = now.length, .other = 3, .list = 5, .base = 1, .caller = 9 }, 28, 0);
	show_owned(&(struct release){ .len = now.length, .other = 0, .list = 0, .base = 0, .caller = 0 }, 28, 0);
}

/* The reading's refusals come before 28. */
static void release_damaged(unsigned i)
{
	release_start(i);
	put(spot.H + 28, 1, 1);
	show_release(now.length, EMPTY_SHEET, 0, 8, 0);
	put(spot.H + 27, 1, 1);
	show_release(now.length, EMPTY_SHEET, 0, 6, 0);
	put(spot.H + 4, 1, 62);
	show_release(now.length, EMPTY_SHEET, 0, 5, 0);
	put(spot.H + 4, 1, SHORT_L);
	put(spot.f + 24, 3, 63);
	show_release(now.length, EMPTY_SHEET, 0, 4, 0);
}

/* #109's share of the release part. */
void release_editions(void)
{
	for (unsigned i = 0; i < 8; i++) {
		release_older(i);
		release_damaged(i);
	}
}
