/* The audit part: equal, moved, set and strayed files, refused pairs, and all of them in order. */
#include "audit_cases.h"
#include "edition_cases.h"

#include <string.h>

/* The same file, the moved one, the set one, the moved and set one. */
static void audit_explained(unsigned k)
{
	small(k);
	for (uint64_t i = 0; i < 6; i++) {
		const uint64_t base[] = { now.base, 0, highest_base(), random_base(), 0x1000, 0x00100000 };
		ship(base[i]);
		audit(i % 3, 0);
		for (uint64_t j = 0; j <= i; j++)
			turn_byte(now.c + 32 + j + (j > 3 ? now.z - 38 : 0), below(255) + 1);
		if (i < 3)
			audit(turned() + i % 2, 0);
	}
}

/* "The audit": a stray or a setting in every kind of place, each bit and all eight. */
static void audit_kinds(unsigned k)
{
	small(k);
	const uint64_t word = place_of(now.n - 1);
	const uint64_t at[] = {
		0, 31, 32, 40, 49, 50, 71, spot.f, spot.f + 17, spot.f + 20, spot.f + 24, spot.H, spot.H + 11,
		spot.H + 12, spot.H + 16, spot.H + 24, spot.H + 27, spot.H + 32, spot.H + 35, spot.H + 36,
		spot.H + 40, spot.H + 76, spot.H + 77, spot.g, spot.p, spot.p + 8, spot.p + 12, spot.p + 15,
		spot.E - 1, spot.E, now.c - 1, now.c, now.c + 6, now.c + 7, now.c + 31, now.c + 32, now.c + 33,
		now.c + now.z - 2, now.c + now.z - 1, now.c + now.z, word - 1, word, word + 1, word + 2, word + 3, word + 4,
		now.length - 1,
	};
	for (size_t i = 0; i < COUNT(at); i++) {
		if (at[i] >= now.length)
			continue;
		ship(i % 3 == 0 ? now.base : random_base());
		turn_byte(at[i], i % 4 == 0 ? 0xFF : UINT64_C(1) << (i + k) % 8);
		audit(1 + (i + k) % 2, 0);
	}
}

/* "The audit": several differences together, drawn from the sequence. */
static void audit_several(unsigned count)
{
	for (unsigned i = 0; i < count; i++) {
		random_small();
		ship(random_base());
		uint64_t at = below(60);
		while (at < now.length) {
			if (at < spot.H + 28 || at >= spot.H + 32)
				turn_byte(at, below(255) + 1);
			at += 1 + below(i % 2 == 0 ? 12 : 90);
		}
		audit(turned() - (i % 5 == 0 && turned() > 0 ? 1 : 0), i % 5 == 0 && turned() > 0 ? 20 : 0);
	}
}

/* "The audit": the vendor's letters decide, whatever the shipped file says in their places. */
static void audit_shadow(unsigned k)
{
	small(k);
	const uint64_t number[][2] = {
		{ 32, now.V + 1 }, { 48, now.h + 2 }, { spot.H + 24, now.length + 1 },
		{ spot.H + 36, now.c + 1 }, { spot.H + 36, now.c - 4 }, { spot.H + 40, now.z + 4 },
		{ spot.H + 40, now.z - 4 }, { spot.H + 40, 32 }, { spot.p + 8, now.n - 1 },
		{ spot.p + 8, 0 }, { spot.p + 12, now.entry[0] + 4 }, { spot.p + 12, now.entry[0] - 4 },
		{ spot.H, 'G' }, { spot.p + 15, 5 }, { spot.p + 15, 0x8F }, { spot.p + 19, 0x1F }, { spot.H + 4, now.L + 1 },
		{ spot.H + 11, now.header_revision < 6 ? 6 : 5 }, { spot.H + 76, now.extended + 1 },
	};
	for (size_t i = 0; i < COUNT(number); i++) {
		ship(random_base());
		turn_byte(number[i][0], (get_sheet(number[i][0], 1) ^ number[i][1]) & 255);
		turn_byte(now.c + now.z - 1, 0x11);
		turn_byte(now.c + now.z, 0x02);
		turn_byte(now.c + 31, 0x80);
		turn_byte(now.c + 32, 0x70);
		audit(5 + i % 2, 0);
	}
}

/* Refusal 18: the word at the vendor's H+28 in the shipped file isn't legal. */
static void audit_illegal(unsigned k)
{
	small(k);
	for (uint64_t bit = 0; bit < 12; bit++) {
		ship(random_base());
		put_sheet(spot.H + 28, 2, get_sheet(spot.H + 28, 2) ^ UINT64_C(1) << bit);
		audit(bit % 3, 18);
	}
	turn_byte(now.c + 34, 1);
	audit(2, 18);
	now.length = 4097;
	now.V = spot.f + spot.s;
	now.base = 0;
	settle();
	ship(0xFFFFE000);
	audit(1, 0);
	put_sheet(spot.H + 28, 4, 0xFFFFF000);
	audit(3, 18);
	put_sheet(spot.H + 28, 4, 0xFFFFE800);
	audit(3, 18);
	put_sheet(spot.H + 28, 4, 0xFFFFF001);
	audit(0, 18);
}

/* Refusal 19: lengths that differ, before 18 and 20. */
static void audit_pair(unsigned k)
{
	small(k);
	const uint64_t other[] = {
		0, 1, 71, spot.H + 27, spot.H + 31, now.length - 1, now.length + 1, now.length + 4, 4096,
	};
	ship(random_base());
	for (size_t i = 0; i < COUNT(other); i++)
		show_audit(now.length, other[i], i % 4, 19, 0, 0, 0);
	put_sheet(spot.H + 28, 1, 1);
	show_audit(now.length, now.length + 1, 1, 19, 0, 0, 0);
	show_audit(now.length, now.length - 1, 0, 19, 0, 0, 0);
	audit(1, 18);
}

/* The refusals of the vendor's image, alone and before 18, 19 and 20. */
static void audit_refused(unsigned k)
{
	small(k);
	for (size_t i = 0; i < RULES; i++) {
		const unsigned number = rule[i];
		ship(random_base());
		const uint64_t len = build_broken(number);
		const uint64_t more = k % 3 == 1 ? 1 : 0;
		if (k % 3 == 2)
			put_sheet(spot.H + 28, 1, 0xFF);
		if (number % 3 == 0)
			memcpy(sheet, image, now.length);
		show_audit(len, len + more, number % 4, number, broken_index(number), 0, 0);
	}
}

/* The audit part. */
void audit_part(void)
{
	begin_part(UINT64_C(0xE7037ED1A0B428DB), false);
	for (unsigned k = 0; k < SMALLS; k++)
		audit_explained(k);
	for (unsigned k = 0; k < SMALLS; k += 2)
		audit_kinds(k + k / 2 % 2);
	for (unsigned k = 0; k < SMALLS; k += 3)
		audit_unmoved(k);
	audit_places(1);
	audit_places(6);
	audit_counts(2);
	audit_counts(5);
	audit_shadow(0);
	audit_shadow(7);
	audit_illegal(0);
	audit_pair(3);
	audit_pair(4);
	for (unsigned k = 0; k < SMALLS; k += 2)
		audit_refused(k + k / 4);
	audit_lists(2);
	audit_lists(7);
	audit_several(50);
	audit_most();
	audit_many();
	audit_modules();
	audit_editions();
}
