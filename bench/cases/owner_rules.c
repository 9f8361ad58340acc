/* Owner cases: every rule of the list at its boundary, refusal 23. */
#include "owner_cases.h"

/* So many ranges of one byte, each so far from the one before, the owners in turn. */
static void held_many(uint64_t count, uint64_t step, uint64_t caller)
{
	held_start(caller);
	for (uint64_t i = 0; i < count; i++)
		held_range(32 + step * i, 1, 1 + i % 2);
}

/* Refusal 23: 64 ranges and more, touching and, where there is room, apart. */
void owner_counts(void)
{
	static const uint64_t count[] = { 0, 1, 2, 63, 64, 65, 66, 127, 128, 129, 255, 256, 257, 320, 400 };
	small(2);
	now.z = 32 + 400;
	fit(7);
	for (size_t i = 0; i < COUNT(count); i++) {
		held_many(count[i], 1, 1 + i % 2);
		try_list(count[i] <= 64 ? 0 : 23);
		if (count[i] > 200)
			continue;
		held_many(count[i], 2, 2 - i % 2);
		try_list(count[i] <= 64 ? 0 : 23);
	}
}

/* Refusal 23: an empty range alone, and between two that touch. */
static void empty_alone(void)
{
	const uint64_t alone[] = { 0, 31, 32, 40, now.z - 1, now.z, now.z + 1, 0xFFFFFFFF };
	for (size_t i = 0; i < COUNT(alone); i++) {
		held_start(1);
		held_range(alone[i], 0, 1 + i % 2);
		try_list(23);
	}
	held_start(1);
	held_range(32, 4, 1);
	held_range(36, 0, 1);
	held_range(36, 4, 1);
	try_list(23);
}

/* Refusal 23: an empty range at each place of a list, for either caller. */
void owner_empty(unsigned k)
{
	sheet_start(k);
	for (uint64_t i = 0; i < 8; i++) {
		held_standard(1 + i / 4);
		held.range[i % 4].length = 0;
		try_list(23);
	}
	empty_alone();
}

/* Refusal 23: three ranges, the third against the first two. */
static void overlap_third(void)
{
	static const uint64_t third[][5] = {
		{ 36, 3, 39, 42, 0 }, { 36, 3, 39, 41, 23 }, { 36, 3, 50, 37, 23 }, { 36, 3, 50, 39, 23 },
		{ 36, 3, 50, 33, 23 }, { 36, 3, 50, 53, 0 }, { 36, 3, 50, 52, 23 }, { 36, 3, 38, 50, 23 },
	};
	for (size_t i = 0; i < COUNT(third); i++) {
		held_start(1 + i % 2);
		held_range(third[i][0], third[i][1], 1);
		held_range(third[i][2], 3, 2);
		held_range(third[i][3], 3, 1 + i / 2 % 2);
		try_list(third[i][4]);
	}
}

/* Refusal 23: two ranges that touch, overlap by a byte or wholly, or come in the wrong order, of one owner or two. */
void owner_overlap(unsigned k)
{
	static const uint64_t pair[][5] = {
		{ 40, 8, 48, 4, 0 }, { 40, 8, 47, 4, 23 }, { 40, 8, 49, 4, 0 }, { 40, 8, 46, 2, 23 },
		{ 40, 8, 40, 8, 23 }, { 40, 8, 41, 2, 23 }, { 40, 8, 36, 4, 23 }, { 40, 8, 36, 5, 23 },
		{ 40, 8, 33, 2, 23 }, { 40, 1, 40, 1, 23 }, { 40, 1, 41, 1, 0 }, { 40, 8, 32, 20, 23 },
	};
	static const uint64_t owner[][2] = { { 1, 1 }, { 1, 2 }, { 2, 1 } };
	sheet_start(k);
	for (size_t i = 0; i < COUNT(pair) * COUNT(owner); i++) {
		const uint64_t *one = pair[i / COUNT(owner)], *both = owner[i % COUNT(owner)];
		held_start(both[i / 2 % 2]);
		held_range(one[0], one[1], both[0]);
		held_range(one[2], one[3], both[1]);
		try_list(one[4]);
	}
	overlap_third();
}

/* One range, of whoever asks. */
static void try_range(uint64_t offset, uint64_t length, uint64_t number)
{
	held_start(1 + offset % 2);
	held_range(offset, length, held.caller);
	try_list(number);
}

/* A right range, then one that isn't. */
static void try_second(uint64_t offset, uint64_t length, uint64_t next_offset, uint64_t next_length)
{
	held_start(1);
	held_range(offset, length, 1);
	held_range(next_offset, next_length, 2);
	try_list(23);
}

/* Refusal 23: ranges about 32 and z, and ends of 2^32 and above, which are never cut down. */
void owner_bounds(unsigned k)
{
	sheet_start(k);
	const uint64_t z = now.z;
	const uint64_t good = 6, range[][2] = {
		{ 32, 1 }, { 33, 1 }, { z - 1, 1 }, { z - 2, 2 }, { 32, z - 32 }, { 33, z - 33 },
		{ 31, 1 }, { 31, 2 }, { 0, 1 }, { 0, 32 }, { 0, 33 }, { 0, z }, { 30, 2 }, { 31, z - 31 }, { 1, 65535 },
		{ z - 1, 2 }, { z, 1 }, { z - 2, 3 }, { z + 1, 1 }, { 32, z - 31 }, { 32, 65535 }, { 33, z - 32 },
		{ 65535, 1 }, { 65536, 1 }, { 65568, 1 }, { 0x80000020, 1 }, { 0x01000020, 1 },
		{ 0xFFFFFFFF, 1 }, { 0xFFFFFFFF, 34 }, { 0xFFFFFFFF, 65535 }, { 0xFFFFFFE0, 0x20 },
		{ 0xFFFFFFE0, 0x40 }, { 0xFFFFFFE0, 0x48 }, { 0xFFFFFFF0, 0x30 }, { 0xFFFF0000, 65535 },
	};
	for (size_t i = 0; i < COUNT(range); i++)
		try_range(range[i][0], range[i][1], i < good ? 0 : 23);
	try_second(32, 2, z - 1, 2);
	try_second(32, z - 32, z, 1);
	try_second(32, 2, 0xFFFFFFFF, 1);
	try_second(31, 1, 40, 2);
	try_second(0xFFFFFFE0, 0x40, 32, 2);
	try_second(0xFFFFFFFF, 1, 32, 2);
	try_second(0xFFFFFFE0, 0x48, 40, 2);
}

/* Refusal 23: regions of 32, 33 and 65,536 bytes. */
void owner_narrow(void)
{
	static const uint64_t range[][4] = {
		{ 32, 32, 1, 23 }, { 32, 31, 1, 23 }, { 32, 0, 32, 23 }, { 33, 32, 1, 0 }, { 33, 32, 2, 23 },
		{ 33, 33, 1, 23 }, { 33, 31, 1, 23 }, { 33, 31, 2, 23 },
		{ 65536, 32, 65505, 23 }, { 65536, 65535, 2, 23 }, { 65536, 65534, 2, 0 },
	};
	for (size_t i = 0; i < COUNT(range); i++) {
		small((unsigned)(i % SMALLS));
		now.z = range[i][0];
		fit(3);
		held_start(2);
		held_range(range[i][1], range[i][2], 2);
		draft_start();
		if (range[i][3] == 0)
			draft_field(now.z - 1, 1);
		release_held(random_base(), range[i][3]);
		held_start(1 + i % 2);
		draft_start();
		if (now.z < 65536)
			release_held(random_base(), 0);
	}
}

/* Refusal 23: ranges of an owner that is neither 1 nor 2; 0 and 3 at each place of the list, all at two of them. */
void owner_numbers(unsigned k)
{
	static const uint64_t owner[] = { 0, 3, 4, 255, 256, 257, 258, 512, 513, 0x8001, 0x8002, 65534, 65535 };
	sheet_start(k);
	for (size_t i = 0; i < 2 * COUNT(owner) + 8; i++) {
		const size_t place = i < 8 ? i / 2 : i + i / COUNT(owner), which = i < 8 ? i % 2 : i - 8;
		held_standard(1 + i % 2);
		held.range[place % 4].owner = owner[which % COUNT(owner)];
		try_list(23);
	}
}

/* #106: either owner, with a list of four ranges and with none. */
static void good_caller(uint64_t caller)
{
	held_standard(caller);
	try_list(0);
	held_start(caller);
	try_list(0);
}

/* Refusal 23: who asks is neither 1 nor 2, whatever the list, the empty one too. */
void owner_callers(unsigned k)
{
	static const uint64_t caller[] = {
		0, 3, 4, 255, 256, 257, 258, 65535, 65537, 65538, 0x80000001, 0x80000002, 0xFFFFFFFE, 0xFFFFFFFF,
	};
	sheet_start(k);
	for (size_t i = 0; i < COUNT(caller); i++) {
		held_standard(caller[i]);
		try_list(23);
		held_start(caller[i]);
		try_list(23);
		held_range(40, 4, caller[i] % 65536);
		try_list(23);
	}
	good_caller(1);
	good_caller(2);
}

/* Refusal 23: lists of a length about 64 ranges. */
static void lengths_most(void)
{
	now.z = 32 + 66;
	fit(9);
	held_many(66, 1, 2);
	for (uint64_t length = 503; length < 522; length++) {
		held.length = length;
		draft_start();
		release_held(random_base(), length == 504 || length == 512 ? 0 : 23);
	}
	held.length = 512;
	try_field(95, 1, 0);
	held.length = 504;
	try_field(95, 1, 24);
}

/* Refusal 23: a list that ends within a range, about every range of four and about the 64th. */
void owner_lengths(unsigned k)
{
	sheet_start(k);
	held_standard(1);
	held_range(now.z, 1, 1);
	for (uint64_t length = 0; length < 41; length++) {
		held.length = length;
		draft_start();
		release_held(random_base(), length % 8 == 0 && length < 40 ? 0 : 23);
		try_field(46, 1, length % 8 != 0 || length == 40 ? 23 : length < 24 ? 24 : 0);
	}
	lengths_most();
}
