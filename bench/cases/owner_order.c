/* Owner cases: which refusal goes first, both owners on one image in turn, drawn lists; and all of the owners' part. */
#include "owner_cases.h"

/* The refusals of a release after the image's own, in the order of judging. */
static const unsigned order[] = { 15, 23, 16, 17, 24, 18 };

/* The first refusal of a set, whose bits stand for the refusals in their order; 0 for none. */
static unsigned first_of(unsigned set)
{
	for (size_t i = 0; i < COUNT(order); i++)
		if ((set >> i & 1) != 0)
			return order[i];
	return 0;
}

/* Refusal 23 in one of seven ways, the first five by the list. */
static void break_held(unsigned way)
{
	switch (way) {
	case 0: held.range[1].length = 0; break;
	case 1: held.range[1].offset -= 1; break;
	case 2: held.range[3].length += 1; break;
	case 3: held.range[2].owner = 3; break;
	case 4: held.length -= 1; break;
	case 5: held.caller = 3; break;
	default: held.caller = 0; break;
	}
}

/* A sheet and a list of four, both with the faults of a set; gives the base, which may be one of them. */
static uint64_t draft_faults(unsigned set, unsigned way)
{
	draft_start();
	draft_field(32, 4);
	draft_field(38, 2);
	draft_field(45, 3);
	held_start(1);
	held_range(32, 4, 1);
	held_range(36, 5, (set >> 4 & 1) != 0 ? 2 : 1);
	held_range(43, 5, 1);
	held_range(50, now.z - 50, 2);
	if ((set >> 0 & 1) != 0)
		draft.field[1].body += 1;
	if ((set >> 1 & 1) != 0)
		break_held(way % 7);
	if ((set >> 2 & 1) != 0)
		draft.identity ^= UINT64_C(1) << (7 * set + way) % 64;
	if ((set >> 3 & 1) != 0)
		draft.field[0].offset = 31;
	return random_base() + ((set >> 5 & 1) != 0 ? 1 + below(4095) : 0);
}

/* Every set of the six refusals: the first of them is given. */
static void order_sets(unsigned k)
{
	for (unsigned set = 0; set < 64; set++) {
		sheet_start(k);
		release_held(draft_faults(set, set / 4 + k), first_of(set));
	}
}

/* 23 in every way, alone and with each of the others. */
static void order_ways(unsigned k)
{
	for (unsigned i = 0; i < 7 * COUNT(order); i++) {
		const unsigned set = 2 | 1u << i / 7;
		sheet_start(k);
		release_held(draft_faults(set, i % 7), first_of(set));
	}
}

/* The image's refusals go before all of these. */
static void order_image(unsigned k)
{
	static const unsigned sets[] = { 0, 2, 16, 18, 63 };
	for (size_t i = 0; i < RULES; i++) {
		sheet_start(k);
		const uint64_t base = draft_faults(sets[(i + k) % COUNT(sets)], (unsigned)i);
		const uint64_t len = build_broken(rule[i]);
		release_lent(len, base, rule[i], broken_index(rule[i]));
	}
}

/* #106: a sheet without entries with a bad list (23) and a good one, with one of another identity (16 after 23). */
static void order_empty(unsigned k)
{
	for (unsigned way = 0; way < 8; way++) {
		sheet_start(k);
		held_standard(1 + way % 2);
		if (way < 7)
			break_held(way);
		const unsigned number = way < 7 ? 23 : 0;
		release_held(random_base(), number);
		release_held(now.base + 1, number != 0 ? number : 18);
		draft.revision ^= 0x100;
		release_held(random_base(), number != 0 ? number : 16);
		draft.length = 15;
		release_held(random_base(), 15);
	}
}

/* One release in a row: who asks, one field, where to. */
static void row(uint64_t caller, uint64_t offset, uint64_t length, uint64_t base, uint64_t number)
{
	held.caller = caller;
	draft.m = 0;
	draft_field(offset, length);
	draft.flavour += 3;
	release_held_on(base, number);
}

/* #106: both owners on one image in turn, refused releases between; nothing of one's reaches the other's bytes. */
static void order_rows(unsigned k)
{
	sheet_start(k);
	build();
	held_standard(1);
	row(1, 32, 4, now.base, 0);
	row(2, 36, 6, now.base, 0);
	row(1, 35, 2, now.base, 24);
	row(1, 36, 1, now.base, 24);
	row(2, 38, 3, now.base, 0);
	row(1, 42, 1, now.base, 24);
	row(2, 42, 1, 0x00345000, 24);
	row(1, 45, 3, 0x00345000, 0);
	row(2, 50, now.z - 50, 0x00345000, 0);
	row(2, 50, now.z - 49, 0x00345000, 17);
	row(1, now.z - 1, 1, 0x00345000, 24);
	row(3, 36, 2, 0x00345000, 23);
	row(2, now.z - 2, 2, highest_base(), 0);
	draft.revision++;
	row(1, 33, 2, 0, 16);
	draft.revision--;
	row(1, 33, 2, 1, 18);
	row(1, 33, 2, 0, 0);
	row(2, 33, 2, 0, 24);
	row(2, 41, 1, now.base, 0);
}

/* Lists and sheets by the fixed sequence; then a number of the list moved a little. */
static void order_random(void)
{
	for (unsigned i = 0; i < 110; i++) {
		random_small();
		held_random();
		draft_random();
		if (i % 2 == 0 && draft.m > 2)
			draft.m = 1 + below(2), draft_bodies();
		release_held(random_base(), ANY);
		const uint64_t at = below(held.count + 1);
		if (i % 3 != 0 && at < held.count) {
			held.range[at].offset += below(3) - 1;
			held.range[at].length += below(4) / 3;
		}
		held.caller = i % 9 == 0 ? below(4) : 3 - held.caller;
		release_held_on(random_base() + (i % 7 == 0 ? below(4096) : 0), ANY);
	}
}

/* The owners' cases. */
void release_owners(void)
{
	begin_part(UINT64_C(0x2127599BF4325C37), false);
	owner_counts();
	owner_empty(0);
	owner_overlap(3);
	owner_bounds(1);
	owner_bounds(4);
	owner_narrow();
	owner_numbers(2);
	owner_callers(5);
	owner_lengths(6);
	owner_edges(0);
	owner_edges(7);
	owner_gap(1);
	owner_gap(2);
	owner_span(3);
	owner_which(4);
	owner_none(5);
	owner_many();
	owner_single(6);
	owner_sample();
	order_sets(1);
	order_sets(2);
	order_ways(4);
	for (unsigned k = 0; k < SMALLS; k += 3)
		order_image(k);
	order_empty(0);
	order_empty(7);
	for (unsigned k = 0; k < SMALLS; k += 2)
		order_rows(k + k / 2 % 2);
	order_random();
}
