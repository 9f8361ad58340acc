/* Releases in which sheet and base both act or are both at fault, and the whole release part. */
#include "sheet_cases.h"
#include "edition_cases.h"

/* The draft and a base on the planned image. */
static void release_to(uint64_t base, uint64_t number)
{
	build();
	write_draft();
	show_release(now.length, draft.length, base, number, 0);
}

/* The draft and a base on the image as it is. */
static void release_on(uint64_t base, uint64_t number)
{
	write_draft();
	show_release(now.length, draft.length, base, number, 0);
}

/* Sheets of every shape, each with a move. */
static void both_whole(unsigned k)
{
	sheet_start(k);
	const uint64_t base[] = { 0, highest_base(), random_base(), now.base ^ 0x00100000 };
	const uint64_t field[][2] = {
		{ 32, 1 }, { now.z - 1, 1 }, { 32, now.z - 32 }, { 33, now.z - 34 }, { 40, 4 },
	};
	for (size_t i = 0; i < COUNT(base); i++) {
		draft_standard();
		draft.flavour = i;
		release_to(base[i], 0);
		draft_scattered();
		release_to(base[i], 0);
		draft_start();
		release_to(base[i], 0);
	}
	for (size_t i = 0; i < COUNT(field); i++) {
		draft_start();
		draft_field(field[i][0], field[i][1]);
		release_to(base[i % COUNT(base)], 0);
	}
}

/* Releases one after another, refused ones among them; each goes on from where the last left the image. */
static void both_rows(unsigned k)
{
	sheet_start(k);
	build();
	draft_standard();
	release_on(0x00345000, 0);
	release_on(0x00345000, 0);
	draft_scattered();
	release_on(highest_base(), 0);
	draft.flavour = 5;
	release_on(highest_base() + 4096, 18);
	draft.revision++;
	release_on(0x1000, 16);
	draft.revision--;
	release_on(0x1000, 0);
	draft_start();
	release_on(0x1000, 0);
	release_on(now.base, 0);
	draft_field(now.z - 3, 4);
	release_on(0x2000, 17);
	draft.field[0].length = 3;
	draft_bodies();
	release_on(0x2000, 0);
	draft.length++;
	release_on(0, 15);
	draft.length--;
	release_on(0, 0);
}

/* The first rule that applies: 15 (bit 0), 16 (bit 1), 17 (bit 2), 18 (bit 3), the image's fault (bit 4). */
static void both_faults(unsigned k)
{
	for (unsigned set = 0; set < 32; set++) {
		const unsigned number = set / 16 == 0 ? 0 : rule[(set + 3 * k) % RULES];
		sheet_start(k);
		draft_standard();
		draft.field[3].body += set % 2;
		draft.identity ^= set / 2 % 2 == 0 ? 0 : UINT64_C(1) << (7 * set + k) % 64;
		draft.field[0].offset -= set / 4 % 2;
		write_draft();
		const uint64_t len = build_broken(number);
		const uint64_t base = random_base() + (set / 8 % 2 == 0 ? 0 : 1 + below(4095));
		const unsigned own = set % 2 != 0 ? 15 : set / 2 % 2 != 0 ? 16 : set / 4 % 2 != 0 ? 17 : 18;
		const unsigned aim = number != 0 ? number : set == 0 ? 0 : own;
		show_release(len, draft.length, base, aim, broken_index(number));
	}
}

/* A good sheet, an empty one, and 15, 16 and 17, each with every way to be no legal base. */
static void both_illegal(unsigned k)
{
	sheet_start(k);
	const uint64_t base[] = {
		1, 0x800, 0xFFF, now.base | 0x40, highest_base() + 4096, TWO32, TWO32 + now.base, TWO63, UINT64_MAX,
	};
	for (size_t i = 0; i < COUNT(base); i++) {
		draft_standard();
		release_to(base[i], 18);
		draft_start();
		release_to(base[i], 18);
		draft.extended ^= UINT64_C(1) << i;
		release_to(base[i], 16);
		draft.length = 15;
		release_to(base[i], 15);
		draft_start();
		draft_field(now.z, 1);
		release_to(base[i], 17);
	}
}

/* Refusal 16: an empty sheet with one byte of its identity wrong neither sets nor moves. */
static void both_identity(unsigned k)
{
	sheet_start(k);
	for (uint64_t i = 0; i < EMPTY_SHEET; i++) {
		if (i == 12 || i == 13)
			continue;
		build();
		write_draft();
		put_sheet(i, 1, get_sheet(i, 1) ^ UINT64_C(1) << (i + k) % 8);
		show_release(now.length, EMPTY_SHEET, i % 2 == 0 ? now.base : random_base(), 16, 0);
		show_release(now.length, EMPTY_SHEET, now.base + 1, 16, 0);
	}
	draft.identity = draft.revision = draft.extended = 0;
	release_to(random_base(), 16);
	release_to(now.base, 16);
}

/* Refusal 15: a sheet cut short or left over, the base being legal, present or not legal. */
static void both_cut(unsigned k)
{
	sheet_start(k);
	draft_standard();
	build();
	write_draft();
	put_sheet(draft.length, 2, 0x1122);
	for (uint64_t other = 0; other < draft.length + 3; other += 1 + below(5)) {
		const uint64_t base[] = { random_base(), now.base, now.base + 8 };
		if (other != draft.length)
			show_release(now.length, other, base[other % 3], 15, 0);
	}
	show_release(now.length, draft.length, random_base(), 0, 0);
}

/* Refusal 14's bounds: words that touch the region on both sides, all settings set at once. */
static void both_places(unsigned k)
{
	for (size_t i = 0; i < ARRANGEMENTS; i++) {
		sheet_start(k);
		arrange(i);
		draft_start();
		draft_field(32, 1 + below(now.z - 33));
		draft_field(32 + draft.field[0].length, now.z - 32 - draft.field[0].length);
		draft.flavour = i;
		release_to(random_base(), 0);
	}
}

/* Base + image size of 2^32 exactly and 4,096 above, with a sheet that sets. */
static void both_sizes(void)
{
	static const uint64_t length[] = { 4095, 4096, 4097, 8192 };
	for (size_t i = 0; i < COUNT(length); i++) {
		sheet_start((unsigned)i);
		now.length = length[i];
		now.V = spot.f + spot.s;
		now.base = 0x00100000;
		settle();
		draft_standard();
		release_to(highest_base(), 0);
		release_to(highest_base() + 4096, 18);
	}
}

/* The sample table's sheet together with its move, and 1,024 words with 256 settings. */
static void both_samples(void)
{
	small(0);
	now.z = 42;
	fit(5);
	draft_start();
	draft_field(40, 2);
	build();
	write_draft();
	put_sheet(24, 2, 1);
	show_release(now.length, draft.length, 0x00100000, 0, 0);
	if (get(now.c + 40, 2) != 1 || get(spot.H + 28, 4) != 0x00100000)
		fail("the sample's sheet or move isn't there");
	small(1);
	now.n = 1024;
	now.before = true;
	now.z = 32 + 512;
	now.fill = 65536;
	fit(0);
	draft_start();
	for (uint64_t i = 0; i < 256; i++)
		draft_field(32 + 2 * i, 1 + i % 2);
	release_to(0xFFF00000, 0);
	release_to(0xFFF00800, 18);
}

/* Plans, sheets and bases by the fixed sequence; then a number of the sheet or the base moved a little. */
static void both_random(void)
{
	for (unsigned i = 0; i < 60; i++) {
		random_small();
		draft_random();
		release_to(random_base(), 0);
		const uint64_t at = below(16 + 8 * draft.m);
		const uint64_t base = random_base() + (below(3) == 0 ? below(8192) : 0);
		if (i % 3 != 0)
			put_sheet(at, 1, get_sheet(at, 1) + 1 + below(3) * 254);
		show_release(now.length, draft.length, i % 5 == 0 ? base << below(24) : base, ANY, 0);
	}
}

/* The releases in which both act. */
void release_both(void)
{
	begin_part(UINT64_C(0x589965CC75374CC3), false);
	for (unsigned k = 0; k < SMALLS; k++)
		both_rows(k);
	for (unsigned k = 0; k < SMALLS; k += 2)
		both_whole(k + k / 2 % 2);
	both_faults(1);
	both_faults(2);
	both_faults(7);
	both_illegal(3);
	both_illegal(4);
	both_identity(0);
	both_identity(5);
	both_cut(1);
	both_cut(6);
	both_places(2);
	both_places(7);
	both_sizes();
	both_samples();
	both_random();
}

/* The release part. */
void release_part(void)
{
	release_moves();
	release_sheets();
	release_both();
	release_owners();
	release_modules();
	release_editions();
}
