/* Release cases: the extended number of #102 in bytes 14..15 of a sheet, against the image's. */
#include "sheet_cases.h"

/* A sheet of four fields with this number. */
static void apply_number(uint64_t number, uint64_t aim)
{
	draft_standard();
	draft.extended = number;
	apply_draft(aim);
}

/* A plan with this header revision, L and number, and an empty sheet for it. */
static void number_start(uint64_t revision, uint64_t L, uint64_t number)
{
	small(1);
	now.header_revision = revision;
	now.L = L;
	now.extended = number;
	now.z += 24;
	fit(13);
	draft_start();
}

/* Refusal 16: each bit, each half and the two halves changed over; in the sheet, then in the image. */
void sheet_numbers(unsigned k)
{
	sheet_start(k);
	const uint64_t right = extended_number();
	const uint64_t wrong[] = {
		0, right % 256, right - right % 256, right % 256 * 256 + right / 256,
		right ^ 0xFF, right ^ 0xFF00, 0xFFFF, right + 1, right - 1,
	};
	apply_number(right, 0);
	for (uint64_t bit = 0; bit < 16; bit++)
		apply_number(right ^ UINT64_C(1) << bit, 16);
	for (size_t i = 0; i < COUNT(wrong); i++)
		apply_number(wrong[i], 16);
	for (uint64_t half = 0; half < 2; half++) {
		draft_standard();
		write_draft();
		build();
		put(spot.H + 76 + half, 1, get(spot.H + 76 + half, 1) ^ 0x10);
		show_apply(now.length, draft.length, 16, 0);
		put_sheet(14 + half, 1, get_sheet(14 + half, 1) ^ 0x10);
		show_apply(now.length, draft.length, 0, 0);
	}
}

/* #102: older sheets, with zeros, on images with a number, with the number 0, and without one. */
void sheet_older(void)
{
	static const uint64_t number[] = { 0, 1, 0x0100, 0x8000, 0xFFFF };
	static const uint64_t revision[] = { 3, 5, 6, 7, 255 };
	for (size_t i = 0; i < COUNT(revision); i++) {
		for (size_t j = 0; j < COUNT(number); j++) {
			number_start(revision[i], 80 + j, number[j]);
			apply_number(0, revision[i] >= 6 && number[j] != 0 ? 16 : 0);
			draft_start();
			draft.extended = 0;
			apply_draft(revision[i] >= 6 && number[j] != 0 ? 16 : 0);
		}
	}
}

/* Refusal 16: sheets with a number on images below revision 6, also with what stands at H+76. */
void sheet_below(void)
{
	static const uint64_t L[] = { 72, 73, 76, 79, 80, 96 };
	for (size_t i = 0; i < COUNT(L); i++) {
		number_start(i % 2 == 0 ? 5 : 3, L[i], 0);
		build();
		const uint64_t there = get(spot.H + 76, 2);
		apply_number(there, there == 0 ? 0 : 16);
		apply_number(0x0100, 16);
		apply_number(1, 16);
		apply_number(0, 0);
		draft_start();
		draft.extended = 0x0201;
		apply_draft(16);
	}
	number_start(5, 80, 0x0203);
	draft_standard();
	write_draft();
	build();
	put(spot.H + 11, 1, 6);
	put(spot.H + 76, 2, 0x0203);
	show_apply(now.length, draft.length, 16, 0);
	put_sheet(14, 2, 0x0203);
	show_apply(now.length, draft.length, 0, 0);
	put(spot.H + 11, 1, 5);
	show_apply(now.length, draft.length, 16, 0);
}

/* The lowest number that applies: 15 (bit 0), the extended number (bit 1), the revision (bit 2), 17 (bit 3). */
void sheet_number_order(unsigned k)
{
	for (unsigned set = 1; set < 16; set++) {
		sheet_start(k);
		draft_standard();
		draft.length += set % 2;
		draft.extended ^= set / 2 % 2 == 0 ? 0 : 0x0100 << k % 2;
		draft.revision += set / 4 % 2;
		draft.field[0].offset -= set / 8;
		apply_draft(set % 2 != 0 ? 15 : set / 2 % 4 != 0 ? 16 : 17);
	}
	sheet_start(k);
	draft.extended ^= 0x8001;
	apply_draft(16);
	for (uint64_t other = 13; other < 18; other++)
		show_apply(now.length, other, other == 16 ? 16 : 15, 0);
	put_sheet(12, 2, 1);
	show_apply(now.length, 16, 15, 0);
}
