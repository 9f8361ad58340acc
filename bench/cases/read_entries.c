/* Reading cases: refusals 12 to 14, the entries; those of 22 are in read_reserved.c. */
#include "read_cases.h"

/* Refusal 12: types 1..14 at the first, a middle and the last entry. */
void damage_type(unsigned k)
{
	start(k);
	const uint64_t index[] = { 0, now.n / 2, now.n - 1 };
	for (size_t i = 0; i < COUNT(index); i++) {
		for (uint64_t type = 0; type < 16; type++) {
			const uint64_t old = now.entry[index[i]] & 0xF0FFFFFF;
			if ((type + i + k) % 2 == 0 || type == 0 || type > 13)
				entry(index[i], old | type << 24, type % 15 == 0 ? 0 : 12);
		}
	}
	entry(1, 0x01000010, 12);
	entry(0, 0x8EFFFFFC, 12);
	entry(now.n - 1, 0xFEFFFFFD, 12);
}

/* Refusal 13: the samples' words and both sides of each bound. */
void damage_place(unsigned k)
{
	start(k);
	const uint64_t back0 = TWO24 - now.length;
	const uint64_t at[] = { 0, now.n / 2, now.n - 1 };
	const uint64_t out[] = {
		now.length - 3, now.length - 2, now.length - 1, now.length, now.length + 1,
		0xFFFFFFFD, 0xFFFFFFFE, 0xFFFFFFFF, 0xF0FFFFFD, 0xFF000000, 0x00F80000, 0x0007FFFC,
		0x00FFFFFF, 0x00FFFFFC, 0x0FFFFFFC, 0x0F800000, 0xF0000000,
		0xF0000000 | (back0 - 1), 0xF0000000 | (back0 - 3), 0xFF000000 | (back0 - 4),
		0xF0000000 | (back0 - 5), 0xF0000000 | now.length, 0xF0000000 | spot.E,
	};
	const uint64_t in[] = {
		now.length - 4, now.length - 5, 0xFFFFFFFC, 0xFFFFFFFB, 0xF0FFFFFC, 0xF0FFFFFB,
		0x0F000000 | (now.length - 4), 0x0F000000 | (now.length - 5),
		0xF0000000 | (back0 + now.length - 4),
	};
	for (size_t i = 0; i < COUNT(out); i++)
		entry(at[i % 3], out[i], 13);
	for (size_t i = 0; i < COUNT(in); i++)
		entry(at[i % 3], in[i], 0);
	entry(0, 0xF0000000 | back0, 14);
	entry(1, 0xFF000000 | (back0 + 1), 14);
	entry(1, 0, 14);
}

/* Refusal 14: about E and about the region's two ends. */
void damage_overlap(unsigned k)
{
	start(k);
	const uint64_t end = now.c + now.z;
	const uint64_t about[] = { spot.E, now.c, end, spot.p, now.c + 16, now.c + now.z / 2 };
	for (size_t i = 0; i < COUNT(about); i++) {
		for (uint64_t d = 0; d < 10; d++) {
			const uint64_t place = about[i] + d - 5;
			const bool low = place < spot.E;
			const bool inside = place < end && place + 4 > now.c;
			if (i < 3 || d % 3 == 0)
				entry((i + d) % now.n, word(place, (i + d) % 2 == 1, 15 * (d % 2)),
				      low || inside ? 14 : 0);
		}
	}
	entry(0, word(spot.H + 28, false, 0), 14);
	entry(now.n - 1, word(spot.H + 28, true, 15), 14);
	entry(2, word(0, true, 15), 14);
	entry(2, word(spot.E - 4, false, 15), 14);
}

/* Refusal 14: two words 0 to 5 bytes apart on either side, the later one being at fault. */
void damage_twice(unsigned k)
{
	start(k);
	const uint64_t pair[][2] = { { 0, 1 }, { 0, 2 }, { 1, 2 }, { 0, now.n - 1 } };
	const uint64_t place = now.c + now.z + 20;
	for (size_t i = 0; i < COUNT(pair); i++) {
		for (uint64_t d = 0; d < 11; d++) {
			const bool apart = d < 2 || d > 8;
			const bool back = (d + i + k) % 2 == 0;
			start(k);
			now.entry[pair[i][0]] = word(place, back, 0);
			now.entry[pair[i][1]] = word(place + d - 5, d % 3 == 0, 15);
			build();
			show(now.length, apart ? 0 : 14, apart ? 0 : pair[i][1]);
		}
	}
}

/* Refusal 14: words against ones before and after them in the image, three at a time. */
void damage_between(unsigned k)
{
	start(k);
	const uint64_t at = now.c + now.z + 8;
	const uint64_t place[][4] = {
		{ at, at + 8, at + 4, 9 }, { at, at + 7, at + 4, 2 }, { at, at + 8, at + 3, 2 },
		{ at, at + 6, at + 3, 2 }, { at + 4, at + 8, at + 1, 2 }, { at + 8, at, at + 5, 2 },
		{ at, at, at, 1 }, { at, at + 4, at, 2 }, { at, at + 4, at + 4, 2 },
		{ at, spot.E - 1, at, 1 }, { at, at + 1, spot.E - 1, 1 }, { now.c, now.c, at, 0 },
		{ at, now.c - 3, at + 3, 1 }, { at + 2, at + 6, at - 2, 9 },
	};
	for (size_t i = 0; i < COUNT(place); i++) {
		const uint64_t index = place[i][3];
		for (uint64_t j = 0; j < 3; j++)
			now.entry[j] = word(place[i][j], (i + j) % 2 == 0, 0);
		build();
		show(now.length, index == 9 ? 0 : 14, index == 9 ? 0 : index);
	}
}

/* The passes over all entries: 12, 22, 13, 14. */
static uint64_t rank(uint64_t number)
{
	return number == 22 ? 25 : 2 * number;
}

/* Refusals 12, 22, 13, 14 one after the other: every arrangement of faults on three entries, some faulty in two ways. */
void damage_passes(unsigned k)
{
	start(k);
	const uint64_t out = word(now.length - 3, false, 0), low = word(spot.E - 1, true, 15);
	const uint64_t fault[8] = {
		0, 0x05FFFFFC, reserved(now.entry[0], 1), out, low,
		0x81000000, reserved(out, 4), reserved(low, 2),
	};
	static const uint64_t number[8] = { 0, 12, 22, 13, 14, 12, 22, 22 };
	for (uint64_t mix = 0; mix < 512; mix++) {
		const uint64_t kind[3] = { mix % 8, mix / 8 % 8, mix / 64 };
		uint64_t first = 0, index = 0;
		if (mix % 5 != k && (kind[0] > 4 || kind[1] > 4 || kind[2] > 4))
			continue;
		build();
		for (uint64_t j = 0; j < 3; j++) {
			if (kind[j] != 0)
				put(spot.p + 12 + 4 * j, 4, fault[kind[j]]);
			if (number[kind[j]] != 0 && (first == 0 || rank(number[kind[j]]) < rank(first))) {
				first = number[kind[j]];
				index = j;
			}
		}
		show(now.length, first, index);
	}
}
