/* The setting part: lookups about both ends of the region, and sums that would come round if cut down. */
#include "edition_cases.h"

/* A small plan with room for settings, built; no byte of the region is its neighbour's. */
static void setting_start(unsigned k)
{
	small(k);
	now.z += 29;
	fit(k);
	build();
}

/* "One setting": a lookup in the image as it is. */
static void look(uint64_t offset, uint64_t size, uint64_t number)
{
	show_setting(now.length, offset, size, number);
}

/* Refusal 17: offsets and lengths about 32 and z. */
static void setting_bounds(unsigned k)
{
	setting_start(k);
	const uint64_t z = now.z;
	const uint64_t offset[] = { 0, 1, 31, 32, 33, z - 2, z - 1, z, z + 1 };
	const uint64_t size[] = { 0, 1, 2, z - 33, z - 32, z - 31, z - 1, z };
	for (size_t i = 0; i < COUNT(offset); i++) {
		for (size_t j = 0; j < COUNT(size); j++) {
			const bool good = size[j] != 0 && offset[i] >= 32 && offset[i] + size[j] <= z;
			if (good || (i + j + k) % 2 == 0)
				look(offset[i], size[j], good ? 0 : 17);
		}
	}
}

/* Refusal 17: sums that would come round to the region in 16, 32 or 64 bits. */
static void setting_sums(unsigned k)
{
	setting_start(k);
	const uint64_t z = now.z;
	const uint64_t part[][2] = {
		{ UINT64_MAX, 1 }, { UINT64_MAX, 34 }, { UINT64_MAX, z + 1 }, { UINT64_MAX, UINT64_MAX },
		{ UINT64_MAX, 0 }, { UINT64_MAX - 31, 64 }, { UINT64_MAX - 31, 32 }, { UINT64_MAX - 31, 72 },
		{ 32, UINT64_MAX }, { 32, UINT64_MAX - 31 }, { 32, UINT64_MAX - 30 }, { 40, UINT64_MAX - 6 },
		{ 40, UINT64_MAX - 39 }, { 40, UINT64_MAX - 38 + 32 }, { z, UINT64_MAX }, { z - 1, UINT64_MAX },
		{ TWO63, TWO63 }, { TWO63, TWO63 + 40 }, { TWO63 + 32, 1 }, { TWO63 + 32, TWO63 + 1 },
		{ 32, TWO63 }, { 32, TWO63 + 1 }, { TWO32, 1 }, { TWO32 + 32, 1 }, { TWO32 + 40, 2 },
		{ TWO32 - 1, 1 }, { TWO32 - 1, 2 }, { TWO32 - 1, 34 }, { TWO32 - 32, 64 }, { TWO32 - 32, 80 },
		{ 32, TWO32 }, { 32, TWO32 + 1 }, { 40, TWO32 + 2 }, { 32, TWO32 - 1 }, { 40, TWO32 - 6 },
		{ 40, TWO32 - 8 + 33 }, { 40, TWO32 - 40 }, { 65536 + 32, 1 }, { 65535, 34 }, { 32, 65536 + 1 },
		{ 40, 65536 - 7 }, { 65536, 40 }, { TWO24 + 40, 1 }, { 40, TWO24 + 1 }, { 0, UINT64_MAX },
		{ 0, TWO32 + 40 }, { UINT64_MAX - 7, 48 }, { TWO32 + z - 1, 1 }, { 31, UINT64_MAX },
	};
	for (size_t i = 0; i < COUNT(part); i++)
		look(part[i][0], part[i][1], 17);
}

/* "One setting": parts by the fixed sequence, most of them inside. */
static void setting_random(unsigned count)
{
	for (unsigned i = 0; i < count; i++) {
		if (i % 6 == 0) {
			random_small();
			build();
		}
		const uint64_t offset = 32 + below(now.z - 31);
		const uint64_t left = offset < now.z ? now.z - offset : 1;
		look(offset, i % 5 == 0 ? left + below(2) : 1 + below(left), ANY);
	}
}

/* Refusal 10's bounds: a region without settings, with one byte of them. */
static void setting_narrow(void)
{
	for (uint64_t z = 32; z < 35; z++) {
		small((unsigned)(z % SMALLS));
		now.z = z;
		fit(3);
		build();
		look(32, 1, z > 32 ? 0 : 17);
		look(32, 0, 17);
		look(33, 1, z > 33 ? 0 : 17);
		look(31, 1, 17);
		look(32, 2, z > 33 ? 0 : 17);
	}
}

/* The image's refusals, the part asked for being good or not. */
static void setting_refused(unsigned k, bool good)
{
	setting_start(k);
	for (size_t i = 0; i < RULES; i++) {
		const uint64_t len = build_broken(rule[i]);
		show_setting(len, good ? 40 : 31, good ? 3 : UINT64_MAX, rule[i]);
	}
}

/* Refusal 17: a region whose offsets and lengths take more than a byte. */
static void setting_wide(void)
{
	static const uint64_t about[] = { 254, 255, 256, 257, 300, 511, 512, 600 };
	small(2);
	now.z = 600;
	now.fill = 65536;
	fit(0);
	build();
	for (size_t i = 0; i < COUNT(about); i++) {
		look(about[i], 600 - about[i], i < 7 ? 0 : 17);
		look(about[i], 601 - about[i], 17);
		look(about[i] - 1, 2, i < 7 ? 0 : 17);
		look(32, about[i] - 32, 0);
		look(about[i], 65536, 17);
	}
}

/* The setting part. */
void setting_part(void)
{
	begin_part(UINT64_C(0xA0761D6478BD642F), false);
	setting_bounds(0);
	setting_bounds(3);
	setting_bounds(6);
	setting_sums(0);
	setting_sums(5);
	setting_narrow();
	setting_refused(1, true);
	setting_refused(4, true);
	setting_refused(7, true);
	setting_refused(2, false);
	setting_random(90);
	setting_wide();
	setting_editions();
}
