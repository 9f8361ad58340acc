/* Release cases: every way a sheet can be wrong, refusals 15 to 17. */
#include "sheet_cases.h"

/* Refusal 15: a whole sheet cut short at every byte, and one or two bytes left over. */
void sheet_cut(void)
{
	sheet_start(0);
	draft_standard();
	write_draft();
	put_sheet(draft.length, 2, 0x7788);
	build();
	for (uint64_t other = 0; other < draft.length + 3; other++)
		if (other != draft.length)
			show_apply(now.length, other, 15, 0);
	show_apply(now.length, draft.length, 0, 0);
	draft_start();
	write_draft();
	for (uint64_t other = 14; other < 18; other++)
		show_apply(now.length, other, other == 16 ? 0 : 15, 0);
}

/* Refusal 15: the count; #102: not the two bytes after it. */
void sheet_heads(unsigned k)
{
	static const uint64_t number[] = { 1, 0x80, 0xFF, 0x0100, 0x8000, 0xFF00, 0xFFFF };
	static const uint64_t m[] = { 0, 1, 3, 5, 256, 257, 260, 0x8004, 65535 };
	sheet_start(k);
	draft_standard();
	for (size_t i = 0; i < COUNT(number); i++) {
		draft.extended = extended_number() ^ number[i];
		apply_draft(16);
	}
	draft.extended = extended_number();
	for (size_t i = 0; i < COUNT(m); i++) {
		build();
		write_draft();
		put_sheet(12, 2, m[i]);
		show_apply(now.length, draft.length, 15, 0);
	}
	draft_start();
	apply_draft(0);
	for (size_t i = 1; i < COUNT(m); i++) {
		build();
		write_draft();
		put_sheet(12, 2, m[i]);
		show_apply(now.length, 16, 15, 0);
	}
}

/* Refusal 15: a length of 0 in each entry, the bodies running on or not. */
void sheet_lengths(unsigned k)
{
	sheet_start(k);
	for (uint64_t i = 0; i < 4; i++) {
		draft_standard();
		draft.field[i].length = 0;
		draft_bodies();
		apply_draft(15);
		draft_standard();
		build();
		write_draft();
		put_sheet(20 + 8 * i, 2, 0);
		show_apply(now.length, draft.length, 15, 0);
		put_sheet(20 + 8 * i, 2, draft.field[i].length + 1);
		show_apply(now.length, draft.length, 15, 0);
	}
	apply_one(40, 0, 15);
	apply_one(0, 0, 15);
	apply_two(40, 2, 42, 0, 15);
	apply_two(40, 0, 40, 2, 15);
}

/* Refusal 15: a body position off by one either way in each entry, and further off. */
void sheet_bodies(unsigned k)
{
	static const uint64_t off[] = { 1, 65535, 256, 8, 65528, 32768 };
	sheet_start(k);
	for (uint64_t i = 0; i < 4; i++) {
		for (size_t j = 0; j < COUNT(off); j++) {
			draft_standard();
			draft.field[i].body = (draft.field[i].body + off[j]) % 65536;
			if (j < 2 || (i + j) % 3 == 0)
				apply_draft(15);
		}
	}
	draft_standard();
	for (uint64_t i = 0; i < 4; i++)
		draft.field[i].body -= 48;
	apply_draft(15);
	draft_start();
	draft_field(40, 2);
	draft_field(44, 2);
	draft.field[0].body = 34;
	draft.field[1].body = 32;
	apply_draft(15);
	draft.field[0].body = 32;
	apply_draft(15);
	draft.field[1].body = 34;
	apply_draft(0);
}

/* Refusal 15: an offset below the end of the entry before, at it, and after it; the order. */
void sheet_order(unsigned k)
{
	sheet_start(k);
	for (uint64_t i = 1; i < 4; i++) {
		for (uint64_t d = 0; d < 5; d++) {
			draft_start();
			for (uint64_t j = 0; j < 4; j++)
				draft_field(34 + 4 * j, 3);
			draft.field[i].offset += d - 4;
			apply_draft(d < 3 ? 15 : 0);
		}
	}
	apply_two(40, 3, 40, 3, 15);
	apply_two(50, 3, 40, 3, 15);
	apply_two(50, 3, 32, 1, 15);
	apply_two(40, 8, 42, 2, 15);
	apply_two(40, 8, 48, 2, 0);
	draft_start();
	draft_field(40, 4);
	draft_field(50, 4);
	draft_field(44, 4);
	apply_draft(15);
}

/* Refusal 16: each byte of identity and revision, in the sheet and in the image. */
void sheet_identity(unsigned k)
{
	sheet_start(k);
	draft_standard();
	for (uint64_t i = 0; i < 12; i++) {
		build();
		write_draft();
		put_sheet(i, 1, get_sheet(i, 1) ^ UINT64_C(1) << (i * 3 + k) % 8);
		show_apply(now.length, draft.length, 16, 0);
		put_sheet(i, 1, get(i < 8 ? spot.H + 16 + i : spot.H + 4 + i, 1));
		show_apply(now.length, draft.length, 0, 0);
		build();
		put(spot.H + 12 + i, 1, get(spot.H + 12 + i, 1) ^ 1 << i % 8);
		show_apply(now.length, draft.length, 16, 0);
	}
	draft.revision++;
	apply_draft(16);
	draft.revision -= 2;
	apply_draft(16);
	draft.revision = draft.identity = 0;
	apply_draft(16);
	draft_start();
	draft.revision--;
	apply_draft(16);
	draft.identity = UINT64_MAX;
	apply_draft(16);
}

/* Refusal 17: fields about 32 and z, and offsets near 2^32. */
void sheet_bounds(unsigned k)
{
	sheet_start(k);
	const uint64_t z = now.z;
	const uint64_t good[][2] = {
		{ 32, 1 }, { 33, 1 }, { z - 1, 1 }, { z - 2, 2 }, { 32, z - 32 }, { 33, z - 33 },
	};
	const uint64_t bad[][2] = {
		{ 31, 1 }, { 31, 2 }, { 0, 1 }, { 0, 32 }, { 0, z }, { 30, 2 }, { 31, z - 31 },
		{ z - 1, 2 }, { z, 1 }, { z - 2, 3 }, { z + 1, 1 }, { 32, z - 31 }, { 32, 1000 },
		{ 65535, 1 }, { 65536, 1 }, { 65568, 1 }, { 0x80000020, 1 }, { 0x01000020, 1 },
		{ 0xFFFFFFFF, 1 }, { 0xFFFFFFFF, 34 }, { 0xFFFFFFFF, 41 }, { 0xFFFFFFE0, 0x20 },
		{ 0xFFFFFFE0, 0x48 }, { 0xFFFFFFF0, 0x30 }, { 0xFFFF0000, 400 },
	};
	for (size_t i = 0; i < COUNT(good); i++)
		apply_one(good[i][0], good[i][1], 0);
	for (size_t i = 0; i < COUNT(bad); i++)
		apply_one(bad[i][0], bad[i][1], 17);
	apply_two(32, 2, z - 1, 2, 17);
	apply_two(31, 2, 40, 2, 17);
	apply_two(0, 2, z, 2, 17);
	apply_two(32, 2, 0xFFFFFFFF, 1, 17);
	apply_two(32, z - 32, z, 1, 17);
}

/* Refusals 15 and 17: ends of 2^32 and above, which are never cut down. */
void sheet_wrap(unsigned k)
{
	sheet_start(k);
	apply_two(0xFFFFFFF0, 0x20, 40, 2, 15);
	apply_two(0xFFFFFFFF, 1, 32, 1, 15);
	apply_two(0xFFFFFFFF, 1, 0, 1, 15);
	apply_two(0xFFFFFFFF, 2, 0xFFFFFFFF, 1, 15);
	apply_two(0xFFFFFFFE, 1, 0xFFFFFFFF, 1, 17);
	apply_two(0xFFFFFFE0, 0x40, 0x20, 2, 15);
	apply_two(0xFFFFFFE0, 0x40, 0xFFFFFFFF, 2, 15);
	apply_two(0x80000000, 2, 0x80000002, 2, 17);
	apply_two(0xFFFFFF00, 0x100, 0xFFFFFFFF, 2, 15);
}

/* The lowest number that applies: an image's fault (bit 3), 15 (bit 0), 16 (bit 1), 17 (bit 2). */
void sheet_together(unsigned k)
{
	for (unsigned set = 1; set < 16; set++) {
		const unsigned number = set / 8 == 0 ? 0 : rule[(set + 2 * k) % RULES];
		sheet_start(k);
		draft_standard();
		draft.field[3].body += set % 2;
		draft.revision ^= set / 2 % 2 == 0 ? 0 : 0x10000;
		draft.field[0].offset -= set / 4 % 2 == 0 ? 0 : 1;
		write_draft();
		const uint64_t len = build_broken(number);
		const uint64_t aim = number != 0 ? number : set % 2 != 0 ? 15 : set / 2 % 2 != 0 ? 16 : 17;
		show_apply(len, draft.length, aim, broken_index(number));
	}
}
