/* Releases to the present base: whole sheets, refused images, sheets and moves in a row, and all of them in order. */
#include "sheet_cases.h"

#include <string.h>

/* "The release sheet": whole ones, from no field to one for each byte. */
static void sheet_whole(unsigned k)
{
	sheet_start(k);
	apply_draft(0);
	apply_one(32, 1, 0);
	apply_one(now.z - 1, 1, 0);
	apply_one(32, now.z - 32, 0);
	apply_one(40, 2, 0);
	apply_two(32, 1, 33, 1, 0);
	apply_two(32, 5, 37, now.z - 37, 0);
	apply_two(32, 1, now.z - 1, 1, 0);
	draft_standard();
	draft.flavour = 1 + k;
	apply_draft(0);
	draft_scattered();
	apply_draft(0);
	draft_start();
	for (uint64_t offset = 32; offset < now.z && k % 3 == 0; offset++)
		draft_field(offset, 1);
	apply_draft(0);
}

/* The sample table's sheet, z at least 42 and one less, and the sheet without its last byte. */
static void sheet_sample(void)
{
	static const uint8_t sample[] = {
		0x54, 0x52, 0x45, 0x41, 0x54, 0x2D, 0x30, 0x31, 0x04, 0x03, 0x02, 0x01, 0x01, 0x00,
		0x00, 0x00, 0x28, 0x00, 0x00, 0x00, 0x02, 0x00, 0x18, 0x00, 0x01, 0x00,
	};
	static const uint64_t z[] = { 64, 42, 41, 40, 32 };
	for (size_t i = 0; i < COUNT(z); i++) {
		small(0);
		now.z = z[i];
		fit(5);
		build();
		memcpy(sheet, sample, sizeof sample);
		show_apply(now.length, sizeof sample - 1, 15, 0);
		show_apply(now.length, sizeof sample, z[i] < 42 ? 17 : 0, 0);
	}
}

/* Refusal 15: 256 entries and one more, of one byte and of two, touching and apart. */
static void sheet_many(void)
{
	small(2);
	now.z = 32 + 514;
	fit(7);
	for (uint64_t length = 1; length < 3; length++) {
		draft_start();
		for (uint64_t i = 0; i < 256; i++)
			draft_field(32 + (length + 1) / 2 * 2 * i, length);
		apply_draft(0);
	}
	draft.field[255].body++;
	apply_draft(15);
	draft.field[255].body--;
	draft.field[255].offset += 3;
	apply_draft(17);
	draft.field[255].offset -= 4;
	apply_draft(15);
	draft.field[255].offset += 1;
	draft_field(544, 1);
	apply_draft(15);
	draft.m--;
	draft_bodies();
	draft.length--;
	apply_draft(15);
	draft.length++;
	draft.flavour = 3;
	apply_draft(0);
}

/* Refusal 15: sheets of 65,534 to 65,536 bytes, one of 65,535 set in a region of 65,536. */
static void sheet_longest(void)
{
	small(0);
	now.z = 65536;
	fit(0);
	draft_start();
	draft_field(32, 65502);
	draft_field(65535, 1);
	apply_draft(0);
	small(0);
	build();
	show_apply(now.length, 65535, 17, 0);
	show_apply(now.length, 65534, 15, 0);
	put_sheet(65535, 1, 0x5A);
	show_apply(now.length, 65536, 15, 0);
	put_sheet(28, 2, 2);
	show_apply(now.length, 65536, 15, 0);
	put_sheet(28, 2, 1);
	put_sheet(4, 1, 0);
	show_apply(now.length, 65535, 16, 0);
	show_apply(now.length, 65536, 15, 0);
}

/* The image's refusals with a good sheet. */
static void sheet_refused(unsigned k)
{
	sheet_start(k);
	draft_standard();
	write_draft();
	for (size_t i = 0; i < RULES; i++) {
		const uint64_t len = build_broken(rule[i]);
		show_apply(len, draft.length, rule[i], broken_index(rule[i]));
	}
}

/* Sheets applied twice, one after another, and with moves before and after them. */
static void sheet_rows(unsigned k)
{
	sheet_start(k);
	draft_standard();
	apply_draft(0);
	show_apply(now.length, draft.length, 0, 0);
	show_move(now.length, 0x00345000, 0, 0);
	show_apply(now.length, draft.length, 0, 0);
	draft_scattered();
	draft.flavour = 9;
	write_draft();
	show_apply(now.length, draft.length, 0, 0);
	show_move(now.length, now.base, 0, 0);
	draft_start();
	write_draft();
	show_apply(now.length, 16, 0, 0);
	draft_field(34, 6);
	write_draft();
	show_apply(now.length, draft.length, 0, 0);
	show_move(now.length, 0x00345800, 18, 0);
	put_sheet(14, 1, get_sheet(14, 1) ^ 1);
	show_apply(now.length, draft.length, 16, 0);
	show_move(now.length, highest_base(), 0, 0);
}

/* Sheets by the fixed sequence, and one number of each moved a little. */
static void sheet_random(void)
{
	for (unsigned i = 0; i < 45; i++) {
		random_small();
		draft_random();
		apply_draft(0);
		const uint64_t at = below(16 + 8 * draft.m);
		put_sheet(at, 1, get_sheet(at, 1) + 1 + below(3) * 254);
		show_apply(now.length, draft.length, ANY, 0);
	}
}

/* The releases that only set. */
void release_sheets(void)
{
	begin_part(UINT64_C(0x8CB92BA72F3D8DD7), false);
	for (unsigned k = 0; k < SMALLS; k += 2)
		sheet_whole(k + k / 2 % 2);
	sheet_sample();
	sheet_cut();
	sheet_heads(1);
	sheet_lengths(2);
	sheet_bodies(3);
	sheet_order(4);
	sheet_identity(5);
	sheet_bounds(0);
	sheet_bounds(6);
	sheet_wrap(7);
	sheet_together(1);
	sheet_together(6);
	sheet_numbers(1);
	sheet_numbers(5);
	sheet_older();
	sheet_below();
	sheet_number_order(2);
	sheet_number_order(3);
	sheet_refused(0);
	sheet_refused(3);
	sheet_refused(6);
	for (unsigned k = 0; k < SMALLS; k += 2)
		sheet_rows(k);
	sheet_random();
	sheet_many();
	sheet_longest();
}
