/*
 * Which base the words of a shipped file agree on, where its base word is damaged: not legal, or at odds with most of the
 * others. The base that more than half of the words would have is the only one worth asking for; whether they have it is the
 * library's answer to an audit of a copy with that base word.
 */
#include <inttypes.h>
#include <stdio.h>
#include <stdlib.h>

#include "checked.h"
#include "files.h"
#include "letters.h"
#include "messages.h"

/* The base that a word of the file would have moved to. */
static uint32_t base_by(const struct check *check, const struct word *word)
{
	const uint64_t is = number_at(&check->shipped.bytes, word->at, (size_t)word->width);
	return (uint32_t)(pajurenda_field(check->reading, PAJURENDA_READ_BASE) + is - word->value);
}

/* The one base that more than half of the words can have: each takes away another's vote. */
static uint32_t likely_base(const struct check *check)
{
	uint32_t base = 0;
	uint64_t votes = 0;
	for (uint64_t i = 0; i < count_moved(&check->contents); i++) {
		const struct word word = word_at(&check->contents, check->contents.spots[i].entry);
		if (word.room == BASE_WORD)
			continue;
		const uint32_t mine = base_by(check, &word);
		if (votes == 0)
			base = mine;
		votes += votes == 0 || mine == base ? 1 : UINT64_MAX;
	}
	return base;
}

/* How many words have no stray in them, by an audit's list; the base word doesn't count. */
static uint64_t count_clear(const struct check *check, const struct findings *findings)
{
	const uint64_t strays = differences(findings);
	uint64_t clear = 0, next = 0;
	for (uint64_t i = 0; i < count_moved(&check->contents); i++) {
		const struct word word = word_at(&check->contents, check->contents.spots[i].entry);
		while (next < strays && pajurenda_position(pajurenda_place(findings->places, (size_t)next)) < word.at)
			next++;
		const bool has = next < strays && pajurenda_position(pajurenda_place(findings->places, (size_t)next)) <
							  word.at + word.width;
		clear += word.room != BASE_WORD && !has;
	}
	return clear;
}

/* How many words of a copy at this base agree with it; 0 where the library doesn't take it. */
static uint64_t try_base(const struct check *check, uint32_t base)
{
	struct findings findings = { .places = NULL };
	struct bytes copy;
	uint64_t clear = 0;
	const uint64_t place = pajurenda_field(check->reading, PAJURENDA_READ_HEADER) + 28;
	if (!copy_bytes(&check->shipped.bytes, &copy))
		return 0;
	for (size_t i = 0; i < 4 && has_bytes(&copy, place, 4); i++)
		copy.at[place + i] = (uint8_t)(base >> (8 * i));
	if (find_differences(&check->vendor.bytes, &copy, &findings) == PAJURENDA_ACCEPTED)
		clear = count_clear(check, &findings);
	free(findings.places);
	free(copy.at);
	return clear;
}

/* The base that most words agree on, where the file's own isn't it: by the audit against the vendor's image, or, where that was
   refused for the base, by none. */
void find_agreed(struct check *check, const struct findings *findings)
{
	struct agreed *agreed = &check->agreed;
	if (count_moved(&check->contents) == 0)
		return;
	agreed->words = count_moved(&check->contents) - 1;
	if (agreed->words == 0 || (findings != NULL && 2 * count_clear(check, findings) >= agreed->words))
		return;
	const uint32_t base = likely_base(check);
	agreed->agreeing = try_base(check, base);
	agreed->found = 2 * agreed->agreeing > agreed->words;
	agreed->base = base;
}

/* Said where it was found, up to the line's end. */
void put_agreed(FILE *to, const struct check *check)
{
	const struct agreed *agreed = &check->agreed;
	fprintf(to, "%" PRIu64 " of %" PRIu64 " other words agree on base 0x%08" PRIX32, agreed->agreeing, agreed->words,
		agreed->base);
}
