/* Releases with an empty sheet: images moved, there and back, with every kind of word, and refused with nothing patched. */
#include "cases.h"

/* The planned image, moved once. */
static void move_to(uint64_t base, uint64_t number)
{
	build();
	show_move(now.length, base, number, 0);
}

/* The image moved on from where it is. */
static void move_on(uint64_t base)
{
	show_move(now.length, base, 0, 0);
}

/* "Moving": to 0, the highest legal base, the present one and bases between. */
static void move_bases(unsigned k)
{
	small(k);
	const uint64_t base[] = {
		0, highest_base(), now.base, 0x1000, 0x00100000, 0x7FFFF000, 0x80000000,
		0xFFF80000, 0xFFFFE000, random_base(),
	};
	for (size_t i = 0; i < COUNT(base); i++)
		move_to(base[i], 0);
}

/* "Moving": there and back, thrice in a row, and to where it is. */
static void move_rows(unsigned k)
{
	small(k);
	build();
	move_on(random_base());
	move_on(now.base);
	move_on(highest_base());
	move_on(0);
	move_on(now.base);
	move_on(now.base);
	move_on(random_base());
}

/* "Patch table": n of 0, 1, 2, 3 and 16. */
static void move_counts(unsigned k)
{
	static const uint64_t n[] = { 0, 1, 2, 3, 16 };
	for (size_t i = 0; i < COUNT(n); i++) {
		small(k);
		now.n = n[i];
		fit(i);
		move_to(random_base(), 0);
		move_on(k % 2 == 0 ? highest_base() : 0);
	}
}

/* "Patch table": 1,024 words touching each other, and the last of them at fault. */
static void move_most(void)
{
	small(1);
	now.n = 1024;
	now.before = true;
	now.fill = 65536;
	fit(0);
	move_to(0xFFF00000, 0);
	build();
	put(spot.p + 12 + 4 * 1023, 4, now.entry[1022] - 3);
	show_move(now.length, 0, 14, 1023);
}

/* Refusal 14's bounds: words at E, at the region's two ends, at the image's end, in any order. */
static void move_places(unsigned k)
{
	for (size_t i = 0; i < ARRANGEMENTS; i++) {
		small(k);
		arrange(i);
		move_to(random_base(), 0);
	}
}

/* "Moving": words that wrap either way, come to 0 or to 0xFFFFFFFF, or carry through their bytes. */
static void move_values(uint64_t from, uint64_t to, unsigned k)
{
	const uint64_t by = (TWO32 + to - from) % TWO32;
	const uint64_t value[][3] = {
		{ 0, 0xFFFFFFFF, 0x80000000 }, { 1, 0xFFFFFFFE, 0x7FFFFFFF },
		{ 0xFFF80040, 0xFFFFFFFC, 0x00180000 }, { 0x00000FFF, 0xFFFFF000, 0x00FFFFFF },
		{ TWO32 - by, TWO32 - by - 1, TWO32 - by + 1 }, { from, to, from + 0x40 },
	};
	small(k);
	now.base = from;
	for (size_t i = 0; i < COUNT(value); i++) {
		build();
		for (uint64_t j = 0; j < 3; j++)
			put(place_of(j), 4, value[i][j]);
		show_move(now.length, to, 0, 0);
	}
}

/* "Moving": upwards and downwards, by much and by little. */
static void move_all_values(void)
{
	static const uint64_t pair[][2] = {
		{ 0xFFF80000, 0x00100000 }, { 0x00100000, 0xFFF80000 }, { 0, 0xFFFFF000 }, { 0xFFFFF000, 0 },
		{ 0x1000, 0 }, { 0, 0x1000 }, { 0x7FFFF000, 0x80000000 }, { 0x80000000, 0 },
		{ 0x80001000, 0x80000000 }, { 0x12345000, 0xFEDCB000 },
	};
	for (size_t i = 0; i < COUNT(pair); i++)
		move_values(pair[i][0], pair[i][1], (unsigned)i % SMALLS);
}

/* "Where an entry points" and refusal 22: both ways, with bits 30..28 of the last entry turned in every way. */
static void move_bits(unsigned k)
{
	small(k);
	const uint64_t last = now.n - 1;
	for (uint64_t bits = 0; bits < 8; bits++) {
		for (uint64_t j = 0; j < now.n; j++)
			now.entry[j] = word(place_of(j), (bits + j + k) % 2 == 0, 15 * (j % 2));
		move_to(random_base(), 0);
		build();
		put(spot.p + 12 + 4 * last, 4, reserved(now.entry[last], bits));
		show_move(now.length, random_base(), bits == 0 ? 0 : 22, bits == 0 ? 0 : last);
	}
}

/* The image's refusals, to a base that is legal or not. */
static void move_refused(unsigned k, bool legal_base)
{
	for (size_t i = 0; i < RULES; i++) {
		small(k);
		const uint64_t len = build_broken(rule[i]);
		const uint64_t base = random_base();
		const uint64_t low = legal_base ? 0 : 1 + below(4095);
		show_move(len, base + low, rule[i], broken_index(rule[i]));
	}
}

/* Refusal 18: each single low bit, and 2^32 and above. */
static void move_illegal(unsigned k)
{
	small(k);
	const uint64_t base[] = {
		TWO32, TWO32 + 4096, TWO32 + now.base, 2 * TWO32, TWO32 - 1, TWO32 - 2048, 1, 4095, 4097,
		TWO63, TWO63 + 4096, TWO63 + now.base, UINT64_MAX - 4095, UINT64_MAX, UINT64_MAX - 4096,
		now.base << 32 | 0x1000, UINT64_MAX - now.length + 1, UINT64_MAX - 8191,
	};
	for (uint64_t bit = 0; bit < 12; bit++)
		move_to(now.base | UINT64_C(1) << bit, 18);
	for (size_t i = 0; i < COUNT(base); i++)
		move_to(base[i], 18);
}

/* "Moving": base + image size of 2^32 exactly, 4,096 above, and 2^64, which is never cut down. */
static void move_sizes(void)
{
	static const uint64_t length[] = { 4096, 4097, 8192 };
	for (size_t i = 0; i < COUNT(length); i++) {
		small((unsigned)i);
		now.length = length[i];
		now.V = spot.f + spot.s;
		now.base = 0x00100000;
		settle();
		move_to(highest_base(), 0);
		move_to(highest_base() + 4096, 18);
		if (i == 0)
			move_to(UINT64_MAX - 4095, 18);
	}
}

/* Refusals 12 to 14 and 22 in the last entry alone: nothing is patched. */
static void move_last(unsigned k, uint64_t n)
{
	small(k);
	now.n = n;
	fit(9);
	const uint64_t fault[][2] = {
		{ 0x0EFFFFFC, 12 }, { 0xFFFFFFFD, 13 }, { now.length - 3, 13 }, { 0xF0000000, 13 },
		{ 0x80000000, 22 }, { 0x8F000000, 22 }, { 0x10000000 | spot.E, 22 }, { 0xBFFFFFFC, 22 },
		{ spot.E - 1, 14 }, { now.c - 3, 14 }, { now.c + now.z - 1, 14 }, { place_of(0) + 3, 14 },
		{ word(place_of(n - 2) - 3, true, 15), 14 }, { spot.H + 28, 14 },
	};
	for (size_t i = 0; i < COUNT(fault); i++) {
		build();
		put(spot.p + 12 + 4 * (n - 1), 4, fault[i][0]);
		show_move(now.length, random_base(), fault[i][1], n - 1);
	}
}

/* Plans and bases by the fixed sequence, the words' bytes too. */
static void move_random(void)
{
	for (unsigned i = 0; i < 55; i++) {
		random_small();
		build();
		for (uint64_t j = 0; j < now.n; j++)
			if (below(3) != 0)
				put(place_of(j), 4, below(TWO32));
		show_move(now.length, random_base(), 0, 0);
		const uint64_t next = below(TWO32);
		if (i % 3 == 0)
			show_move(now.length, next << below(24), ANY, 0);
	}
}

/* The releases that only move. */
void release_moves(void)
{
	begin_part(UINT64_C(0xD1B54A32D192ED03), false);
	for (unsigned k = 0; k < SMALLS; k++) {
		move_bases(k);
		move_rows(k);
	}
	for (unsigned k = 1; k < SMALLS; k += 2) {
		move_counts(k);
		move_places(k / 2 * 3 % SMALLS);
	}
	move_most();
	move_all_values();
	move_bits(0);
	move_bits(5);
	move_refused(0, true);
	move_refused(3, true);
	move_refused(6, true);
	move_refused(5, false);
	move_illegal(1);
	move_illegal(4);
	move_sizes();
	move_last(0, 3);
	move_last(7, 16);
	move_random();
}
