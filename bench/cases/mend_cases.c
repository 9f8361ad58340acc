/* The mend part, #110: strays at every kind of place put back, moved files, lists, refusals; each list in places, some in bytes. */
#include "audit_cases.h"

#include <string.h>

/* A stray or a setting in every kind of place, the first byte and the last among them; the file at its own base or moved. */
static void mend_kinds(unsigned k)
{
	small(k);
	build();
	const uint64_t word = place_of(now.n - 1);
	const uint64_t at[] = {
		0, 32, 49, 71, spot.f, spot.f + 17, spot.f + 24, spot.H, spot.H + 11, spot.H + 16, spot.H + 24, spot.H + 27,
		spot.H + 32, spot.H + 36, spot.H + 40, spot.g, spot.p, spot.p + 8, spot.p + 12, spot.p + 15, spot.E - 1, spot.E,
		now.c - 1, now.c, now.c + 31, now.c + 32, now.c + now.z - 1, now.c + now.z, word - 1, word, word + 3, word + 4,
		now.length - 1,
	};
	for (size_t i = 0; i < COUNT(at); i++) {
		if (at[i] >= now.length)
			continue;
		ship(i % 3 == 0 ? now.base : random_base());
		turn_byte(at[i], i % 4 == 0 ? 0xFF : UINT64_C(1) << (i + k) % 8);
		if (i % 5 == 0)
			put_back(2, 0);
		else
			put_back_exact();
	}
}

/* Explained files stay as they are, moved or set; mending twice is mending once. */
static void mend_kept(unsigned k)
{
	small(k);
	const uint64_t base[] = { now.base, 0, highest_base(), random_base() };
	for (size_t i = 0; i < COUNT(base); i++) {
		ship(base[i]);
		put_back(i % 2, 0);
		turn_byte(now.c + 32 + i, below(255) + 1);
		turn_byte(now.c + now.z - 1, 0x81);
		put_back_exact();
		turn_byte(5, 0x5A);
		turn_byte(now.length - 1, 0xA5);
		put_back(turned(), 0);
		put_back_exact();
	}
}

/* Words left where they were while the base word moved, or moved twice; every one of their bytes comes to where it should be. */
static void mend_moved(unsigned k)
{
	small(k);
	for (uint64_t i = 0; i < 4; i++) {
		const uint64_t base[] = { 0, highest_base(), 0x00100000, random_base() };
		ship(base[i]);
		for (uint64_t j = i; j < now.n; j++)
			memcpy(sheet + place_of(j), image + place_of(j), 4);
		show_mend(&(struct mending){ .len = now.length, .other = now.length, .list = 64, .settings = ANY });
		audit(0, 0);
		memcpy(sheet, image, now.length);
		put_sheet(spot.H + 28, 4, base[i]);
		show_mend(&(struct mending){ .len = now.length, .other = now.length, .list = 64, .settings = ANY });
		audit(0, 0);
	}
	const uint64_t twice = random_base();
	ship(twice);
	put_sheet(place_of(1), 4, get_sheet(place_of(1), 4) + twice - now.base);
	show_mend(&(struct mending){ .len = now.length, .other = now.length, .list = 4, .settings = ANY });
	audit(0, 0);
}

/* The vendor's letters decide, whatever the shipped file says in their places. */
static void mend_shadow(unsigned k)
{
	small(k);
	build();
	const uint64_t number[][2] = {
		{ spot.H + 24, now.length + 1 }, { spot.H + 36, now.c + 1 }, { spot.H + 40, now.z + 4 }, { spot.H + 40, 32 },
		{ spot.p + 8, 0 }, { spot.p + 12, now.entry[0] + 4 }, { spot.H, 'G' }, { spot.p + 15, 0x8F }, { spot.H + 4, now.L + 1 },
	};
	for (size_t i = 0; i < COUNT(number); i++) {
		ship(random_base());
		turn_byte(number[i][0], (get_sheet(number[i][0], 1) ^ number[i][1]) & 255);
		turn_byte(now.c + now.z - 1, 0x11);
		turn_byte(now.c + now.z, 0x02);
		turn_byte(now.c + 31, 0x80);
		turn_byte(now.c + 32, 0x70);
		put_back(5 + i % 2, 0);
	}
}

/* Several differences together, drawn from the sequence; lists exact and one short. */
static void mend_several(unsigned count)
{
	for (unsigned i = 0; i < count; i++) {
		random_small();
		ship(random_base());
		for (uint64_t at = below(60); at < now.length; at += 1 + below(i % 2 == 0 ? 12 : 90))
			if (at < spot.H + 28 || at >= spot.H + 32)
				turn_byte(at, below(255) + 1);
		if (turned() > 0)
			put_back(turned() - 1, 20);
		put_back_exact();
	}
}

/* The mend part. */
void mend_part(void)
{
	begin_part(UINT64_C(0x9B05688C2B3E6C1F), false);
	mend_kinds(0);
	mend_kinds(3);
	mend_kinds(6);
	mend_kept(1);
	mend_kept(4);
	mend_moved(2);
	mend_moved(7);
	mend_shadow(5);
	mend_lists(2);
	mend_lists(7);
	for (unsigned k = 0; k < SMALLS; k += 3) {
		mend_all(k, false);
		mend_all(k, true);
	}
	for (unsigned k = 0; k < 6; k++)
		mend_modules(k);
	mend_several(12);
	mend_illegal(0);
	mend_pair(3);
	for (unsigned k = 0; k < 3; k++)
		mend_refused(k);
	mend_editions();
}
