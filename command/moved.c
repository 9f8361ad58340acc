/* The words that a move changes: what the maker's image has, what they should be, and what the file has. */
#include "moved.h"

#include <inttypes.h>
#include <string.h>

/* The file has what the move makes of the word. */
bool is_right(const struct check *check, const struct word *word)
{
	return memcmp(check->reference.at + word->at, check->shipped.bytes.at + word->at, (size_t)word->width) == 0;
}

/* How many words are so. */
uint64_t count_right(const struct check *check)
{
	const struct contents *contents = &check->contents;
	uint64_t right = 0;
	for (uint64_t i = 0; i < count_entries(contents); i++) {
		if (!is_word(contents, i))
			continue;
		const struct word word = word_at(contents, i);
		right += is_right(check, &word);
	}
	return right;
}

/* Which word it is, and whose. */
void put_word_name(FILE *to, const struct check *check, const struct word *word)
{
	const struct lying where = { .room = word->room, .index = word->index, .module = word->module };
	put_lying(to, &check->contents, &where, 0);
}

/* A word's line: its place, its name, and the three values. */
static void put_one(FILE *to, const struct check *check, const struct word *word)
{
	const struct bytes *files[] = { &check->vendor.bytes, &check->reference, &check->shipped.bytes };
	static const char *const names[] = { "maker's", "should", "is" };
	fprintf(to, "W %" PRIu64 "..%" PRIu64 " length %" PRIu64 " ", word->at, word->at + word->width - 1, word->width);
	put_word_name(to, check, word);
	for (size_t i = 0; i < 3; i++)
		fprintf(to, " %s 0x%0*" PRIX64, names[i], (int)(2 * word->width),
			pajurenda_number(files[i]->at + word->at, (size_t)word->width));
	fputs(is_right(check, word) ? " right\n" : " wrong\n", to);
}

/* Every word, in the order of the move. */
void put_moved(FILE *to, const struct check *check)
{
	const struct contents *contents = &check->contents;
	for (uint64_t i = 0; i < count_entries(contents) && ferror(to) == 0; i++) {
		if (!is_word(contents, i))
			continue;
		const struct word word = word_at(contents, i);
		put_one(to, check, &word);
	}
}
