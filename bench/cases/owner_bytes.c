/* Owner cases: sheets that set a byte which isn't the caller's, refusal 24. */
#include "owner_cases.h"

/* Ten bytes from 40 on are the caller's; those before are the other's (bit 0) or nobody's, those after (bit 1) too. */
static void held_middle(uint64_t caller, unsigned beside)
{
	held_start(caller);
	if (beside % 2 != 0)
		held_range(34, 6, 3 - caller);
	held_range(40, 10, caller);
	if (beside / 2 != 0)
		held_range(50, 5, 3 - caller);
}

/* Refusal 24: by one byte and more at each end of the caller's range. */
static void edges_of_middle(void)
{
	const uint64_t field[][3] = {
		{ 40, 10, 0 }, { 40, 1, 0 }, { 49, 1, 0 }, { 41, 8, 0 }, { 39, 1, 24 }, { 39, 2, 24 }, { 39, 11, 24 },
		{ 50, 1, 24 }, { 49, 2, 24 }, { 40, 11, 24 }, { 39, 12, 24 }, { 32, 1, 24 }, { 32, 30, 24 },
		{ now.z - 1, 1, 24 }, { 40, now.z - 40, 24 },
	};
	for (size_t i = 0; i < COUNT(field); i++)
		try_field(field[i][0], field[i][1], field[i][2]);
}

/* Refusal 24: with bytes of the other's or of nobody beside the range. */
void owner_edges(unsigned k)
{
	sheet_start(k);
	for (unsigned beside = 0; beside < 4; beside++) {
		held_middle(1 + (beside + k) % 2, beside);
		edges_of_middle();
	}
}

/* Refusal 24: a byte between two ranges of the caller's that is nobody's (0), the other's (1), the caller's (2). */
void owner_gap(unsigned k)
{
	sheet_start(k);
	for (uint64_t whose = 0; whose < 3; whose++) {
		const uint64_t caller = 1 + (whose + k) % 2, number = whose == 2 ? 0 : 24;
		held_start(caller);
		held_range(40, 4, caller);
		if (whose != 0)
			held_range(44, 1, whose == 1 ? 3 - caller : caller);
		held_range(45, 4, caller);
		try_field(44, 1, number);
		try_field(40, 9, number);
		try_field(43, 3, number);
		try_field(43, 2, number);
		try_field(44, 2, number);
		try_field(43, 1, 0);
		try_field(45, 4, 0);
		draft_start();
		draft_field(40, 4);
		draft_field(45, 4);
		release_held(random_base(), 0);
		draft_start();
		draft_field(40, 4);
		draft_field(44, 1);
		draft_field(45, 4);
		release_held(random_base(), number);
	}
}

/* #106: an entry over two ranges that touch, both the caller's or one of each owner. */
void owner_span(unsigned k)
{
	static const uint64_t owner[][2] = { { 1, 1 }, { 1, 2 }, { 2, 1 }, { 2, 2 } };
	sheet_start(k);
	for (uint64_t i = 0; i < 2 * COUNT(owner); i++) {
		const uint64_t *both = owner[i / 2], caller = 1 + i % 2;
		const uint64_t first = both[0] == caller ? 0 : 24, second = both[1] == caller ? 0 : 24;
		held_start(caller);
		held_range(40, 3, both[0]);
		held_range(43, 3, both[1]);
		try_field(40, 3, first);
		try_field(42, 1, first);
		try_field(43, 3, second);
		try_field(43, 1, second);
		try_field(42, 2, first != 0 ? first : second);
		try_field(40, 6, first != 0 ? first : second);
		try_field(41, 4, first != 0 ? first : second);
	}
}

/* Four entries, of which one sets a byte more than the caller has; 4 for none of them. */
static void draft_one_over(uint64_t which)
{
	draft_start();
	for (uint64_t i = 0; i < 4; i++) {
		draft_field(34 + 6 * i, 3);
		held_range(34 + 6 * i, i == which ? 2 : 3, held.caller);
	}
}

/* Refusal 24: one entry of four at fault, in turn. */
void owner_which(unsigned k)
{
	sheet_start(k);
	for (uint64_t i = 0; i < 10; i++) {
		held_start(1 + i / 5);
		draft_one_over(i % 5);
		draft.flavour = i;
		release_held(random_base(), i % 5 == 4 ? 0 : 24);
	}
}

/* #106: nobody's region, and one that is all the other's: only a sheet without entries passes. */
void owner_none(unsigned k)
{
	sheet_start(k);
	for (uint64_t i = 0; i < 4; i++) {
		held_start(1 + i % 2);
		if (i / 2 != 0)
			held_range(32, now.z - 32, 3 - held.caller);
		draft_start();
		release_held(random_base(), 0);
		release_held(now.base, 0);
		try_field(32, 1, 24);
		try_field(now.z - 1, 1, 24);
		try_field(32, now.z - 32, 24);
		draft_standard();
		release_held(random_base(), 24);
	}
}

/* 64 ranges of three bytes, one after the other, one of them the other's; 64 for none of them. */
static void held_touching(uint64_t other)
{
	for (uint64_t i = 0; i < 64; i++)
		held_range(32 + 3 * i, 3, i == other ? 3 - held.caller : held.caller);
}

/* 256 entries up to the end of the region, and so many bytes that are the caller's. */
static void release_most(uint64_t bytes, uint64_t number)
{
	held_start(2);
	held_range(32, bytes, 2);
	draft_start();
	for (uint64_t i = 0; i < 256; i++)
		draft_field(32 + 2 * i, 1 + i % 2);
	release_held(random_base(), number);
}

/* #106: an entry over 64 ranges, all the caller's or one of them not; and 256 entries, the last at fault. */
void owner_many(void)
{
	static const uint64_t other[] = { 0, 1, 31, 62, 63, 64 };
	small(5);
	now.z = 32 + 512;
	fit(4);
	for (size_t i = 0; i < COUNT(other); i++) {
		held_start(1 + i % 2);
		held_touching(other[i]);
		try_field(32, 192, i < 5 ? 24 : 0);
		try_field(31 + 3 * 64, 1, i == 4 ? 24 : 0);
		try_field(32, 193, 24);
	}
	release_most(510, 24);
	release_most(511, 24);
	release_most(512, 0);
}

/* Refusal 24: every byte of the settings in turn is the only one that isn't the caller's. */
void owner_single(unsigned k)
{
	sheet_start(k);
	for (uint64_t at = 32; at < now.z; at++) {
		held_start(1 + at % 2);
		if (at > 32)
			held_range(32, at - 32, held.caller);
		if (at % 3 == 0)
			held_range(at, 1, 3 - held.caller);
		if (at + 1 < now.z)
			held_range(at + 1, now.z - 1 - at, held.caller);
		try_field(32, now.z - 32, 24);
		try_field(at, 1, 24);
	}
}

/* The sample table's sheet where bytes 40 and 41 are in ranges of their own. */
static void sample_halves(uint64_t owner, uint64_t next_owner, uint64_t number)
{
	held_start(1);
	held_range(40, 1, owner);
	held_range(41, 1, next_owner);
	release_held(now.base, number);
}

/* The sample table's sheet: region bytes 40 and 41 want an owner, and it is the caller. */
void owner_sample(void)
{
	static const uint64_t range[][5] = {
		{ 1, 40, 2, 1, 0 }, { 2, 40, 2, 2, 0 }, { 1, 40, 2, 2, 24 }, { 2, 40, 2, 1, 24 }, { 1, 40, 1, 1, 24 },
		{ 1, 41, 1, 1, 24 }, { 1, 32, 10, 1, 0 }, { 1, 32, 9, 1, 24 }, { 1, 39, 2, 1, 24 }, { 1, 42, 1, 1, 24 },
	};
	small(0);
	now.z = 43;
	fit(5);
	draft_start();
	draft_field(40, 2);
	for (size_t i = 0; i < COUNT(range); i++) {
		held_start(range[i][0]);
		held_range(range[i][1], range[i][2], range[i][3]);
		release_held(0x00100000, range[i][4]);
	}
	sample_halves(1, 1, 0);
	sample_halves(1, 2, 24);
	sample_halves(2, 1, 24);
	held_start(1);
	release_held(0x00100000, 24);
}
