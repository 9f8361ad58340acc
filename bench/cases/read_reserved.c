/* Reading cases: refusal 22 of #104, bits 30..28 of the entries. */
#include "read_cases.h"

/* Refusal 22: each bit alone and all together, set where bit 31 is clear and clear where it is set. */
void reserved_bits(unsigned k)
{
	start(k);
	const uint64_t index[] = { 0, now.n / 2, now.n - 1 };
	for (size_t i = 0; i < COUNT(index); i++) {
		const uint64_t place = place_of(index[i]);
		for (uint64_t bits = 0; bits < 8; bits++) {
			const uint64_t type = (bits + i) % 2 * 15;
			entry(index[i], reserved(word(place, false, type), bits), bits == 0 ? 0 : 22);
			entry(index[i], reserved(word(place, true, type), bits), bits == 0 ? 0 : 22);
		}
	}
}

/* Refusal 22: the sample's word, words that were in or out of the image before #104, and bit 31 alone turned. */
void reserved_words(unsigned k)
{
	start(k);
	const uint64_t back0 = TWO24 - now.length;
	const uint64_t at[] = { 0, now.n / 2, now.n - 1 };
	const uint64_t turned[] = {
		0x8F000000, 0x80000000, 0x7FFFFFFC, 0x80FFFFFC, 0x8FFFFFFC, 0xBFFFFFFC, 0xDFFFFFFC, 0xEFFFFFFC,
		0x70000000 | (now.length - 4), 0x7F000000 | (now.length - 4), 0x10000000 | (now.length - 4),
		0x20000000 | (now.length - 4), 0x4F000000 | (now.length - 4), 0x80000000 | (back0 + now.length - 4),
		0x80000000 | (back0 - 1), 0x80000000 | (back0 - 5), 0x80000000 | back0, 0x8F000000 | (back0 + 1),
		0x80000000 | now.length, 0x80000000 | spot.E, 0x10000000, 0x7F000000, 0xE0000000, 0x3FFFFFFF,
		now.entry[0] ^ 0x80000000, now.entry[1] ^ 0x80000000,
	};
	for (size_t i = 0; i < COUNT(turned); i++)
		entry(at[i % 3], turned[i], 22);
	entry(0, 0xF0000000, 13);
	entry(now.n - 1, 0xFF000000, 13);
	entry(1, 0x8E000000, 12);
	entry(0, 0x71FFFFFC, 12);
	entry(now.n - 1, 0xA8000000 | spot.E, 12);
}

/* Refusal 22: tables with bits as any maker might leave them, the first wrong entry being told. */
void reserved_tables(unsigned k)
{
	for (uint64_t turn = 0; turn < 8; turn++) {
		uint64_t first = 0;
		start(k);
		for (uint64_t j = now.n; j > 0; j--) {
			const uint64_t bits = (j - 1) * (turn + 1) % 8;
			now.entry[j - 1] = reserved(now.entry[j - 1], bits);
			if (bits != 0)
				first = j - 1;
		}
		build();
		show(now.length, first == 0 ? 0 : 22, first);
	}
}

/* One fault of 12, 13 or 14 beside one of 22, in the same entry, before it or after it. */
void reserved_beside(unsigned k)
{
	start(k);
	const uint64_t fault[][2] = {
		{ 12, word(place_of(0), false, 7) }, { 12, word(place_of(0), true, 1) },
		{ 13, word(now.length - 3, false, 0) }, { 13, 0xFFFFFFFF }, { 13, 0xF0000000 },
		{ 14, word(spot.E - 1, false, 15) }, { 14, word(now.c + 1, true, 0) },
	};
	for (size_t i = 0; i < COUNT(fault); i++) {
		const bool type = fault[i][0] == 12;
		const uint64_t last = now.n - 1, bits = 1 + i;
		entry(1, reserved(fault[i][1], bits), type ? 12 : 22);
		build();
		put(spot.p + 12, 4, fault[i][1]);
		put(spot.p + 12 + 4 * last, 4, reserved(now.entry[last], bits));
		show(now.length, type ? 12 : 22, type ? 0 : last);
		build();
		put(spot.p + 12 + 4, 4, reserved(now.entry[1], bits));
		put(spot.p + 12 + 4 * last, 4, fault[i][1]);
		show(now.length, type ? 12 : 22, type ? last : 1);
	}
}
