/* The linked library's two calls on hand-off blocks against the second reader: the cases, every step through drawn lists, any cursor. */
#include "fields.h"

#include <inttypes.h>
#include <stdbool.h>
#include <stdio.h>
#include <stdlib.h>
#include <string.h>

#include "handoff_images.h"
#include "images.h"
#include "lent.h"
#include "../second/handoff.h"

#define LIST_ROOM ((size_t)1048576)
#define ANSWER_ROOM ((size_t)4096)
#define CURSORS 12
#define KINDS 6

/* Every so many lists the long ones come; LONG must have every number and kind. */
#define ROUND 500
#define LONG 1000
#define THOUSANDS 5000

enum call { STEP, WALK, CALLS };

static const char *const call_name[CALLS] = { "handoff", "handoffs" };
static const size_t answer_bytes[CALLS] = { PAJURENDA_HANDOFF_BYTES, PAJURENDA_HANDOFFS_BYTES };

/* What the second reader gets and says, and the same lent to the library. */
static uint8_t *list;
static size_t size;
static uint8_t answer[ANSWER_ROOM];
static size_t answer_length;
static struct lent lent_list, lent_answer;

/* What came: numbers by call, blocks by kind, cursors by where they are, lists by how many blocks were followed. */
static uint64_t seen[CALLS][101];
static uint64_t kinds[KINDS];
static uint64_t inside, past, highest;
static uint64_t long_accepted, long_refused, longest;

/* ---- the two sides ---- */

/* An answer buffer of drawn bytes: exact or longer, or where it may be also too short. */
static void draw_answer(enum call call, bool may_be_short)
{
	const uint64_t kind = below(8);
	answer_length = answer_bytes[call];
	if (kind == 0)
		answer_length += (size_t)(1 + below(100));
	else if (kind == 1 && may_be_short)
		answer_length -= 1;
	else if (kind == 2 && may_be_short)
		answer_length = (size_t)below(answer_bytes[call]);
	fill_bytes(answer, answer_length);
	lend(&lent_answer, answer, answer_length);
}

/* What the call must have returned and written; then every byte of the answer. */
static bool same_answer(enum call call, uint32_t got, const uint64_t *fields)
{
	uint32_t wanted = PAJURENDA_SHORT;
	if (answer_length >= answer_bytes[call]) {
		wanted = (uint32_t)fields[0];
		put_fields(answer, fields, answer_bytes[call] / 8);
	}
	seen[call][wanted]++;
	if (got != wanted)
		printf("returned %" PRIu32 ", not %" PRIu32 "\n", got, wanted);
	const bool same = same_lent(&lent_answer, "answer", answer) && got == wanted;
	if (!same)
		printf("in %s\n", call_name[call]);
	return same;
}

/* One step at a cursor on the lent list, whose answer must be this. */
static bool step_is(uint64_t cursor, const struct second_block *wanted, bool may_be_short)
{
	const uint64_t fields[] = { wanted->number, wanted->next, wanted->place, wanted->type, wanted->length,
				    wanted->kind, wanted->a, wanted->b, wanted->c, wanted->d };
	draw_answer(STEP, may_be_short);
	const uint32_t got = pajurenda_handoff(lent_list.at, size, cursor, lent_answer.at, answer_length);
	if (cursor >= size)
		past++;
	else
		inside++;
	highest += cursor > UINT64_MAX - 65536 ? 1 : 0;
	if (same_answer(STEP, got, fields))
		return true;
	printf("at cursor %" PRIu64 " of %zu bytes\n", cursor, size);
	return false;
}

/* The whole walk on the lent list, whose answer must be this. */
static bool walk_is(const struct second_list *wanted, bool may_be_short)
{
	const uint64_t fields[] = { wanted->number, wanted->place, wanted->count };
	draw_answer(WALK, may_be_short);
	const uint32_t got = pajurenda_handoffs(lent_list.at, size, lent_answer.at, answer_length);
	return same_answer(WALK, got, fields);
}

/* ---- one list ---- */

/* Every step from 0 to the end block or the fault; they must come to what the whole walk says. */
static bool follow(const struct second_list *walk)
{
	uint64_t cursor = 0, count = 0;
	for (;;) {
		const struct second_block block = second_handoff_step(list, size, cursor);
		if (!step_is(cursor, &block, false))
			return false;
		kinds[block.kind < KINDS ? block.kind : 0]++;
		count += block.number == 0 ? 1 : 0;
		if (block.number != 0 || block.kind == PAJURENDA_BLOCK_END || count > size / 8)
			break;
		cursor = block.next;
	}
	if (count == walk->count && cursor == walk->place)
		return true;
	printf("%" PRIu64 " steps to %" PRIu64 ", but the walk says %" PRIu64 " to %" PRIu64 "\n", count, cursor,
	       walk->count, walk->place);
	return false;
}

/* A cursor: on a multiple of 8 or anywhere inside, about the end, near 2^64, or any. */
static uint64_t drawn_cursor(void)
{
	switch (below(8)) {
	case 0: return size - below(17);
	case 1: return size + below(17);
	case 2: return UINT64_MAX - below(65536);
	case 3: return UINT64_MAX - below(64);
	case 4: return any_number() >> below(64);
	case 5: return below((uint64_t)size + 1);
	default: return below((uint64_t)size / 8 + 1) * 8;
	}
}

/* Some steps at any cursor. */
static bool try_cursors(void)
{
	for (int i = 0; i < CURSORS; i++) {
		const uint64_t cursor = drawn_cursor();
		const struct second_block block = second_handoff_step(list, size, cursor);
		if (!step_is(cursor, &block, true))
			return false;
	}
	return true;
}

/* The list lent once to all of its calls; none of them may have written there. */
static bool compare_list(void)
{
	const struct second_list walk = second_handoffs(list, size);
	lend(&lent_list, list, size);
	if (!walk_is(&walk, true) || !walk_is(&walk, false) || !follow(&walk) || !try_cursors())
		return false;
	if (walk.count >= THOUSANDS && walk.number == 0)
		long_accepted++;
	else if (walk.count >= THOUSANDS)
		long_refused++;
	longest = walk.count > longest ? walk.count : longest;
	return same_lent(&lent_list, "buffer", list);
}

/* ---- the cases ---- */

/* Both readers on one case, against the answer that was written from the document. */
static bool compare_case(const struct handoff_case *one)
{
	const struct second_block *wanted = &one->answer;
	size = one->size;
	handoff_case_fill(one, list);
	const struct second_block second = second_handoff_step(list, size, one->cursor);
	if (memcmp(&second, wanted, sizeof second) != 0) {
		puts("the second reader has another answer");
		return false;
	}
	for (int turn = 0; turn < 8; turn++) {
		lend(&lent_list, list, size);
		if (!step_is(one->cursor, wanted, turn > 0) || !same_lent(&lent_list, "buffer", list))
			return false;
	}
	return compare_list();
}

static bool compare_cases(void)
{
	for (size_t i = 0; i < handoff_cases_count; i++) {
		snprintf(whereabouts, sizeof whereabouts, "case \"%s\"\n", handoff_cases[i].name);
		numbers_from(i);
		if (!compare_case(&handoff_cases[i])) {
			printf("different: %s", whereabouts);
			return false;
		}
	}
	printf("cases: %zu\n", handoff_cases_count);
	return true;
}

/* ---- the run ---- */

/* How much room a list may take: mostly little. */
static size_t drawn_room(void)
{
	const uint64_t kind = below(64);
	if (kind == 0)
		return LIST_ROOM / 8;
	return kind < 6 ? (size_t)65536 + (size_t)below(9) : (size_t)below(kind < 24 ? 200 : 2048);
}

/* Blocks of 8 bytes alone, as many as there is room for. */
static void make_smallest(void)
{
	for (size_t at = 0; at < size; at += 8)
		put_number(list, at, 8, UINT64_C(0x00080005) + at % 7);
	put_number(list, 0, 4, UINT64_C(0x00380001));
	put_number(list, size - 8, 4, UINT64_C(0x0008FFFF));
}

/* At the start of a round lists of thousands of blocks, whole and cut; then drawn ones. */
static void draw_list(uint64_t turn)
{
	switch (turn % ROUND) {
	case 0:
		size = handoff_many(list, 65536);
		break;
	case 1:
		size = handoff_many(list, LIST_ROOM);
		break;
	case 2:
		size = handoff_many(list, LIST_ROOM / 4) - 1 - (size_t)below(8);
		break;
	case 3:
		size = 65536;
		make_smallest();
		break;
	default:
		size = handoff_random(list, drawn_room());
		break;
	}
}

/* Whether each number that both calls can have came; says which did not. */
static bool had_numbers(void)
{
	static const int numbers[] = { PAJURENDA_ACCEPTED, PAJURENDA_BLOCK, PAJURENDA_FIRST, PAJURENDA_NOTHING,
				       PAJURENDA_KIND, PAJURENDA_SHORT };
	bool all = true;
	for (int call = 0; call < CALLS; call++)
		for (size_t i = 0; i < sizeof numbers / sizeof numbers[0]; i++)
			if (seen[call][numbers[i]] == 0) {
				printf("missing: %s never gave %d\n", call_name[call], numbers[i]);
				all = false;
			}
	return all;
}

/* Whether every kind of block, cursor and long list came; says what did not. */
static bool had_kinds(void)
{
	bool all = true;
	for (int kind = 0; kind < KINDS; kind++)
		if (kinds[kind] == 0) {
			printf("missing: no block of kind %d\n", kind);
			all = false;
		}
	if (past == 0 || highest == 0 || long_accepted == 0 || long_refused == 0) {
		puts("missing: cursors past the end, or lists of thousands of blocks");
		all = false;
	}
	return all;
}

/* The counts, and whether the run had all it must have; a part of a run need not. */
static int conclude(uint64_t first, uint64_t count)
{
	for (int call = 0; call < CALLS; call++)
		show_seen(call_name[call], seen[call]);
	printf("blocks  ");
	for (int kind = 1; kind < KINDS; kind++)
		printf(" %s:%" PRIu64, pajurenda_kind_name((uint64_t)kind), kinds[kind]);
	printf("\ncursors inside: %" PRIu64 ", past the end: %" PRIu64 ", of these in the last 65536 below 2^64: %" PRIu64
	       "\n", inside, past, highest);
	printf("lists of %d blocks or more: %" PRIu64 ", refused after as many: %" PRIu64 ", the longest %" PRIu64 "\n",
	       THOUSANDS, long_accepted, long_refused, longest);
	const bool whole = first == 0 && count >= LONG;
	const bool all = !whole || (had_numbers() && had_kinds());
	printf("same: %" PRIu64 " lists%s\n", count, all ? "" : ", but not of every kind");
	return all ? 0 : 1;
}

/* All lists in turn; each draws from its own start, so that one can be repeated alone. */
static int run(uint64_t seed, uint64_t first, uint64_t count)
{
	if (first == 0 && !compare_cases())
		return 1;
	for (uint64_t i = first; i < first + count; i++) {
		snprintf(whereabouts, sizeof whereabouts, "seed %" PRIu64 " list %" PRIu64 "\n", seed, i);
		numbers_from(seed * UINT64_C(0x2545F4914F6CDD1D) + i);
		draw_list(i);
		if (!compare_list()) {
			printf("different: %s", whereabouts);
			return 1;
		}
	}
	return conclude(first, count);
}

/* compare_handoff SEED LISTS [FIRST]; FIRST with one list repeats that list alone. */
int main(int count, char **word)
{
	if (count < 3 || count > 4) {
		fputs("usage: compare_handoff SEED LISTS [FIRST]\n", stderr);
		return 2;
	}
	const uint64_t seed = number_of(word[1]), lists = number_of(word[2]);
	const uint64_t first = count == 4 ? number_of(word[3]) : 0;
	list = memory(malloc(LIST_ROOM));
	open_lent(&lent_list, LIST_ROOM);
	open_lent(&lent_answer, ANSWER_ROOM);
	watch_faults();
	printf("seed %" PRIu64 " lists %" PRIu64 " from %" PRIu64 "\n", seed, lists, first);
	fflush(stdout);
	const int status = run(seed, first, lists);
	return fclose(stdout) == 0 ? status : 2;
}
