#include "fold.h"

#include <stdbool.h>
#include <stdlib.h>

#include "numbers.h"
#include "sheet.h"

#define HEAD 16
#define ENTRY 8
#define LENGTH_BYTES 4
#define MOST_ENTRIES 256
#define MOST_BYTES UINT64_C(65535)

/* #114: a byte of the region and what the last sheet so far sets it to; past 2^32 where an entry goes on that far. */
struct set_byte {
	uint64_t at;
	uint8_t byte;
};

/* #114: all bytes that are set, in order of position; no more than a sheet can hold are kept, the rest is known to be too many. */
struct set_bytes {
	struct set_byte *list, *spare;
	uint64_t room, count;
	bool too_many;
};

/* ---- the pile ---- */

/* Refusal 15: the next length, whole, and as many bytes as it says; false where either is cut short. */
static bool take_sheet(const uint8_t *pile, uint64_t pile_length, uint64_t *at, struct sheet *s)
{
	if (pile_length - *at < LENGTH_BYTES)
		return false;
	const uint64_t length = little(pile, *at, LENGTH_BYTES);
	*at += LENGTH_BYTES;
	if (length > pile_length - *at)
		return false;
	*s = (struct sheet){ .bytes = pile + *at, .length = length };
	*at += length;
	return true;
}

/* Refusal 16, #102: all three parts. */
static bool same_identity(const struct identity *one, const struct identity *other)
{
	return one->image == other->image && one->revision == other->revision && one->extended == other->extended;
}

/* Refusals 15 and 16: the first sheet at fault decides, its form before its identity; an empty pile has no first. */
static uint64_t judge_pile(const uint8_t *pile, uint64_t pile_length, struct identity *first)
{
	uint64_t at = 0;
	if (pile_length == 0)
		return 15;
	for (bool later = false; at < pile_length; later = true) {
		struct sheet s;
		if (!take_sheet(pile, pile_length, &at, &s) || second_sheet_refused(&s))
			return 15;
		const struct identity identity = second_sheet_identity(&s);
		if (!later)
			*first = identity;
		if (!same_identity(first, &identity))
			return 16;
	}
	return 0;
}

/* ---- the bytes that are set ---- */

/* #114: a list for so many bytes; nobody goes on without memory. */
static struct set_byte *room_for(uint64_t bytes)
{
	struct set_byte *list = malloc((size_t)bytes * sizeof *list);
	if (list == NULL)
		abort();
	return list;
}

/* #114: one more byte after the others in the spare list. */
static void append(struct set_bytes *set, uint64_t *count, struct set_byte one)
{
	if (*count == set->room)
		set->too_many = true;
	else
		set->spare[(*count)++] = one;
}

/* #114: the bytes of earlier sheets below a position go over to the spare list; one at the position itself has lost. */
static uint64_t bring_below(struct set_bytes *set, uint64_t old, uint64_t position, uint64_t *count)
{
	while (old < set->count && set->list[old].at < position)
		append(set, count, set->list[old++]);
	if (old < set->count && set->list[old].at == position)
		old++;
	return old;
}

/* #114: one sheet more: its entries are in order, so both lists are read once. */
static void merge_sheet(struct set_bytes *set, const struct sheet *s)
{
	uint64_t old = 0, count = 0;
	for (uint64_t i = 0; i < s->m; i++) {
		const struct field field = second_sheet_field(s, i);
		for (uint64_t k = 0; k < field.length; k++) {
			old = bring_below(set, old, field.offset + k, &count);
			append(set, &count, (struct set_byte){ .at = field.offset + k, .byte = s->bytes[field.body + k] });
		}
	}
	while (old < set->count)
		append(set, &count, set->list[old++]);
	struct set_byte *const was = set->list;
	set->list = set->spare;
	set->spare = was;
	set->count = count;
}

/* #114: every sheet of an accepted pile in its order, until there are too many bytes, which later sheets can't make fewer. */
static void merge_pile(struct set_bytes *set, const uint8_t *pile, uint64_t pile_length)
{
	uint64_t at = 0;
	struct sheet s;
	while (!set->too_many && at < pile_length && take_sheet(pile, pile_length, &at, &s))
		if (!second_sheet_refused(&s) && s.m != 0)
			merge_sheet(set, &s);
}

/* ---- the folded sheet ---- */

/* #114: whether a byte begins a run, that is, doesn't touch the one before. */
static bool begins_run(const struct set_bytes *set, uint64_t i)
{
	return i == 0 || set->list[i].at != set->list[i - 1].at + 1;
}

/* #114: how many runs there are. */
static uint64_t runs_of(const struct set_bytes *set)
{
	uint64_t runs = 0;
	for (uint64_t i = 0; i < set->count; i++)
		runs += begins_run(set, i) ? 1 : 0;
	return runs;
}

/* Sources: a number, lowest byte first. */
static void put_number(uint8_t *at, uint64_t value, unsigned width)
{
	for (unsigned i = 0; i < width; i++)
		at[i] = (uint8_t)(value >> (8 * i));
}

/* #114: how long the run is that begins at a byte. */
static uint64_t run_length(const struct set_bytes *set, uint64_t from)
{
	uint64_t i = from + 1;
	while (i < set->count && !begins_run(set, i))
		i++;
	return i - from;
}

/* #114: one entry for each run, bodies in entry order; a run begins below 2^32, as the entry does that has its first byte. */
static void write_runs(const struct set_bytes *set, uint8_t *output, uint64_t runs)
{
	uint64_t from = 0, body = HEAD + ENTRY * runs;
	for (uint64_t run = 0; run < runs; run++) {
		const uint64_t length = run_length(set, from);
		put_number(output + HEAD + ENTRY * run, set->list[from].at, 4);
		put_number(output + HEAD + ENTRY * run + 4, length, 2);
		put_number(output + HEAD + ENTRY * run + 6, body, 2);
		for (uint64_t k = 0; k < length; k++)
			output[body + k] = set->list[from + k].byte;
		from += length;
		body += length;
	}
}

/* #102, #114: the identity that all have, and the count. */
static void write_head(uint8_t *output, const struct identity *identity, uint64_t runs)
{
	put_number(output, identity->image, 8);
	put_number(output + 8, identity->revision, 4);
	put_number(output + 12, runs, 2);
	put_number(output + 14, identity->extended, 2);
}

/* Refusal 29: what is set is too much for one sheet or for the output. */
static struct second_folded write_sheet(const struct set_bytes *set, const struct identity *identity,
					uint8_t *output, uint64_t room)
{
	const uint64_t runs = runs_of(set), length = HEAD + ENTRY * runs + set->count;
	if (set->too_many || runs > MOST_ENTRIES || length > MOST_BYTES || length > room)
		return (struct second_folded){ .number = 29 };
	write_head(output, identity, runs);
	write_runs(set, output, runs);
	return (struct second_folded){ .length = length, .count = runs };
}

/* #114: 15 and 16 for the pile, then 29. */
struct second_folded second_fold(const uint8_t *pile, uint64_t pile_length, uint8_t *output, uint64_t room)
{
	struct identity identity = { .image = 0 };
	const uint64_t number = judge_pile(pile, pile_length, &identity);

	if (number != 0)
		return (struct second_folded){ .number = number };
	const uint64_t most = pile_length < MOST_BYTES ? pile_length : MOST_BYTES;
	struct set_bytes set = { .list = room_for(most), .spare = room_for(most), .room = most };
	merge_pile(&set, pile, pile_length);
	const struct second_folded folded = write_sheet(&set, &identity, output, room);
	free(set.list);
	free(set.spare);
	return folded;
}
