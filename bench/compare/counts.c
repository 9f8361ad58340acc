/* The counts of compare.c and its conclusion. */
#include "fields.h"

#include <inttypes.h>
#include <stdbool.h>
#include <stdio.h>

#include "counts.h"
#include "drawing.h"
#include "lent.h"

/* A run of so many calls must have every number. */
#define LONG 10000

const char *const call_name[CALLS] = { "read", "release", "sheet", "setting", "audit", "contents" };

/* What came: numbers by call; lengths, and those that got past the reading, by call and edge. */
static uint64_t seen[CALLS][101];
static uint64_t at_edge[CALLS][EDGES], past_reading[CALLS][EDGES];
static uint64_t long_images;

/* Sheets by themselves: those of refusal 15's lengths, and accepted ones without entries, with fewer than 256, with 256. */
static uint64_t of_length[SHEET_LENGTHS], right_length[SHEET_LENGTHS];
static uint64_t right_sheets[3];

/* Accepted images with modules and without, by call. */
static uint64_t with_modules[CALLS][2];

/* #109: images of edition 1 that read, by call; their audits, explained and not. */
static uint64_t of_older[CALLS], older_audits[2];

/* Accepted releases, by whether the sheet has entries and whether the base is another. */
static uint64_t released[2][2];

/* Accepted releases that set, by who asks; of these the ones beside ranges of the other's, over a range's end, with 64 ranges. */
static uint64_t set_by[3], beside, over, full;

/* Refusal 23, by whether one who is an owner asked: then it is the list's. */
static uint64_t refused_owners[2];

/* ---- one call ---- */

/* Documents 01 and 02: the numbers that any call on an image can have, accepted or refused by the reading. */
static bool of_reading(int number)
{
	return number <= PAJURENDA_OVERLAP || number == PAJURENDA_RESERVED || (number >= 25 && number <= 27);
}

/* An image of one of refusal 1's lengths, and how far the call got with it. */
static void count_edge(enum call call, uint32_t number)
{
	long_images += length[IMAGE] > 1048576 ? 1 : 0;
	for (int edge = 0; call != SHEET && edge < EDGES; edge++)
		if (length[IMAGE] == edge_length[edge] && number != PAJURENDA_SHORT) {
			at_edge[call][edge]++;
			past_reading[call][edge] += number == 0 || !of_reading((int)number);
		}
}

/* #109: the revision byte of the image that was given is 1. */
static bool says_older(void)
{
	return plan.H + 12 <= length[IMAGE] && model[IMAGE][plan.H + 11] == 1;
}

/* A call that got past the reading of an image of edition 1; an audit's answer is in its buffer. */
static void count_edition(enum call call, uint32_t number)
{
	const bool accepted = number == 0 && (call == READ || call == AUDIT) && says_older();
	of_older[call] += accepted || number == PAJURENDA_READ_ONLY ? 1 : 0;
	if (call == AUDIT && accepted)
		older_audits[get_number(model[ANSWER], 48, 8)]++;
}

/* One call's number. */
void count_call(enum call call, uint32_t number)
{
	count_edition(call, number);
	seen[call][number]++;
	if (number == 0)
		with_modules[call][plan.cover.M != NOWHERE]++;
	count_edge(call, number);
}

/* A range of the list is the other owner's. */
static bool has_other(uint64_t caller)
{
	for (size_t at = 0; at < length[OWNERS]; at += 8)
		if (get_number(model[OWNERS], at + 6, 2) != caller)
			return true;
	return false;
}

/* The end of some range of the list lies inside an entry. */
static bool goes_over(size_t entry)
{
	const uint64_t offset = get_number(model[OTHER], entry, 4), size = get_number(model[OTHER], entry + 4, 2);
	for (size_t at = 0; at < length[OWNERS]; at += 8) {
		const uint64_t end = get_number(model[OWNERS], at, 4) + get_number(model[OWNERS], at + 4, 2);
		if (end > offset && end < offset + size)
			return true;
	}
	return false;
}

/* An accepted release that sets, by its list. */
static void count_owners(uint64_t caller, uint64_t m)
{
	bool some = false;
	for (uint64_t i = 0; i < m; i++)
		some = some || goes_over((size_t)(16 + 8 * i));
	set_by[caller]++;
	beside += has_other(caller) ? 1 : 0;
	over += some ? 1 : 0;
	full += length[OWNERS] == 512 ? 1 : 0;
}

/* An accepted release by what it did, the sheet and the list being in their buffers still; and refusal 23. */
void count_release(const struct second_released *r, uint64_t caller)
{
	if (r->number == PAJURENDA_OWNERS)
		refused_owners[caller == 1 || caller == 2]++;
	if (r->number != 0)
		return;
	const uint64_t m = get_number(model[OTHER], 12, 2);
	released[m != 0][r->move != 0]++;
	if (m != 0)
		count_owners(caller, m);
}

/* Which of refusal 15's lengths the sheet has; SHEET_LENGTHS where none. */
static uint64_t length_turn(void)
{
	uint64_t turn = 0;
	while (turn < SHEET_LENGTHS && sheet_length(turn) != length[OTHER])
		turn++;
	return turn;
}

/* A sheet by itself. */
void count_sheet(const struct second_judged *r)
{
	const uint64_t turn = length_turn();
	if (turn < SHEET_LENGTHS) {
		of_length[turn]++;
		right_length[turn] += r->number == 0 ? 1 : 0;
	}
	if (r->number == 0)
		right_sheets[r->count == 0 ? 0 : r->count < 256 ? 1 : 2]++;
}

/* ---- the whole run ---- */

/* Document 01: the numbers that a call can have. */
static bool can_be(enum call call, int number)
{
	if (call == SHEET)
		return number == PAJURENDA_ACCEPTED || number == PAJURENDA_SHEET || number == PAJURENDA_SHORT;
	if (of_reading(number) || number == PAJURENDA_SHORT)
		return true;
	switch (call) {
	case RELEASE:
		return (number >= PAJURENDA_SHEET && number <= PAJURENDA_NEWBASE) ||
		       number == PAJURENDA_OWNERS || number == PAJURENDA_OWNER || number == PAJURENDA_READ_ONLY;
	case SETTING: return number == PAJURENDA_FIELD || number == PAJURENDA_READ_ONLY;
	case AUDIT: return number >= PAJURENDA_NEWBASE && number <= PAJURENDA_ROOM;
	case CONTENTS: return number == PAJURENDA_ROOM || number == PAJURENDA_READ_ONLY;
	default: return false;
	}
}

/* How often each step of a release acted; false where some way never came. */
static bool show_released(void)
{
	printf("releases that set and moved: %" PRIu64 ", only set: %" PRIu64 ", only moved: %" PRIu64
	       ", neither: %" PRIu64 "\n", released[1][1], released[1][0], released[0][1], released[0][0]);
	return released[1][1] != 0 && released[1][0] != 0 && released[0][1] != 0 && released[0][0] != 0;
}

/* How often each kind of owner list came; false where one never did. */
static bool show_owners(void)
{
	printf("releases that set, by owner 1: %" PRIu64 ", by owner 2: %" PRIu64 ", of these beside the other's ranges: %" PRIu64
	       ", over a range's end: %" PRIu64 ", with 64 ranges: %" PRIu64 "\n", set_by[1], set_by[2], beside, over, full);
	printf("refused with 23 by the list: %" PRIu64 ", by who asks: %" PRIu64 "\n", refused_owners[1], refused_owners[0]);
	return set_by[1] != 0 && set_by[2] != 0 && beside != 0 && over != 0 && full != 0 &&
	       refused_owners[0] != 0 && refused_owners[1] != 0;
}

/* How often sheets by themselves came; false where a kind, a length, or an accepted one of 16 or 65535 bytes never did. */
static bool show_sheets(void)
{
	uint64_t all = 0;
	bool each = right_sheets[0] != 0 && right_sheets[1] != 0 && right_sheets[2] != 0 &&
		    right_length[16] != 0 && right_length[SHORT_SHEETS + 5] != 0;
	for (uint64_t turn = 0; turn < SHEET_LENGTHS; turn++) {
		all += of_length[turn];
		each = each && of_length[turn] != 0;
		if (right_length[turn] != 0)
			printf("sheets of %" PRIu64 " bytes: %" PRIu64 ", accepted: %" PRIu64 "\n",
			       sheet_length(turn), of_length[turn], right_length[turn]);
	}
	printf("sheets of 0 to 20 and 65530 to 65540 bytes: %" PRIu64 "; accepted ones of any length without entries: %" PRIu64
	       ", with 1 to 255: %" PRIu64 ", with 256: %" PRIu64 "\n", all, right_sheets[0], right_sheets[1], right_sheets[2]);
	return each;
}

/* How often images with modules and without were accepted; false where a call never had one of them. */
static bool show_modules(void)
{
	bool each = true;
	for (int call = 0; call < CALLS; call++) {
		if (call == SHEET)
			continue;
		printf("%s accepted with modules: %" PRIu64 ", without: %" PRIu64 "\n", call_name[call], with_modules[call][1], with_modules[call][0]);
		each = each && with_modules[call][0] != 0 && with_modules[call][1] != 0;
	}
	return each;
}

/* How often images of edition 1 read; false where a call never had one, or an audit of one never went either way. */
static bool show_editions(void)
{
	printf("edition 1 read: %" PRIu64 ", released: %" PRIu64 ", looked into: %" PRIu64 ", listed: %" PRIu64
	       ", audited: %" PRIu64 ", of these explained: %" PRIu64 ", unexplained: %" PRIu64 "\n", of_older[READ], of_older[RELEASE],
	       of_older[SETTING], of_older[CONTENTS], of_older[AUDIT], older_audits[1], older_audits[0]);
	return of_older[READ] != 0 && of_older[RELEASE] != 0 && of_older[SETTING] != 0 && of_older[CONTENTS] != 0 &&
	       older_audits[0] != 0 && older_audits[1] != 0;
}

/* How often the lengths came that document 01 draws the line at. */
static void show_lengths(void)
{
	for (int edge = 0; edge < EDGES; edge++) {
		uint64_t all = 0, past = 0;
		for (int call = 0; call < CALLS; call++)
			all += at_edge[call][edge], past += past_reading[call][edge];
		printf("images of %" PRIu64 " bytes: %" PRIu64 ", read without refusal: %" PRIu64 "\n",
		       edge_length[edge], all, past);
	}
	printf("images above 1 MiB: %" PRIu64 "\n", long_images);
}

/* Whether a call had the numbers and lengths that the run must have; says what it had not. */
static bool had_all(enum call call, bool numbers)
{
	bool all = true;
	for (int number = 0; numbers && number <= PAJURENDA_SHORT; number++)
		if (can_be(call, number) && seen[call][number] == 0) {
			printf("missing: %s never gave %d\n", call_name[call], number);
			all = false;
		}
	for (int edge = 0; call != SHEET && edge < EDGES; edge++)
		if (at_edge[call][edge] == 0 || (edge == MOST && past_reading[call][edge] == 0)) {
			printf("missing: %s on a right image of %" PRIu64 " bytes\n",
			       call_name[call], edge_length[edge]);
			all = false;
		}
	return all;
}

/* The counts, and whether the run had all it must have; a part of a run need not. */
int conclude(uint64_t first, uint64_t count)
{
	bool all = true;
	for (int call = 0; call < CALLS; call++)
		show_seen(call_name[call], seen[call]);
	show_lengths();
	const bool every_way = show_released(), every_list = show_owners(), every_sheet = show_sheets();
	const bool every_image = show_modules() && show_editions();
	for (int call = 0; first == 0 && count >= CALLS * EDGES && call < CALLS; call++)
		all = had_all((enum call)call, count >= LONG) && all;
	if (first == 0 && count >= LONG && !(every_way && every_list && every_sheet && every_image))
		all = false;
	printf("same: %" PRIu64 " calls%s\n", count, all ? "" : ", but not of every kind");
	return all ? 0 : 1;
}
