/* Looking up: names, the nearest of them, choices, defaults that differ. */
#include <stdlib.h>
#include <string.h>

#include "names_parts.h"

/* ---- names ---- */

/* A name's text for one of the two orders. */
static const char *text_of_label(const struct label *label, bool brief)
{
	return brief ? label->brief : label->name;
}

/* The first in an order that isn't before a word, and whether it is that word alone. */
static enum names_sought look_up(const struct label **order, size_t count, bool brief,
				 const char *word, const struct label **found)
{
	size_t low = 0, high = count;
	while (low < high) {
		const size_t middle = low + (high - low) / 2;
		if (strcmp(text_of_label(order[middle], brief), word) < 0)
			low = middle + 1;
		else
			high = middle;
	}
	if (low == count || strcmp(text_of_label(order[low], brief), word) != 0)
		return NAME_UNKNOWN;
	*found = order[low];
	const bool several = low + 1 < count && strcmp(text_of_label(order[low + 1], brief), word) == 0;
	return several ? NAME_SEVERAL : NAME_FOUND;
}

/* By the whole name; where no name is that, by the end after a token space. */
enum names_sought names_called(const struct names *names, const char *word,
			       const struct label **found)
{
	*found = NULL;
	const enum names_sought sought = look_up(names->by_name, names->count, false, word, found);
	return sought != NAME_UNKNOWN ? sought
				      : look_up(names->by_brief, names->count, true, word, found);
}

/* The name that holds an offset. */
const struct label *names_at(const struct names *names, uint32_t offset)
{
	size_t low = 0, high = names->count;
	while (low < high) {
		const size_t middle = low + (high - low) / 2;
		if (names->label[middle].offset <= offset)
			low = middle + 1;
		else
			high = middle;
	}
	if (low == 0)
		return NULL;
	const struct label *label = &names->label[low - 1];
	return offset - label->offset < label->length ? label : NULL;
}

/* ---- the nearest ---- */

/* A letter's small form. */
static char small(char c)
{
	return c >= 'A' && c <= 'Z' ? (char)(c | 32) : c;
}

/* What it costs to take one letter for another: a capital is half a mistake. */
static size_t cost(char one, char other)
{
	return one == other ? 0 : small(one) == small(other) ? 1 : 2;
}

static size_t least(size_t one, size_t other)
{
	return one < other ? one : other;
}

/* How far two texts are apart, in half letters; where it is no less than the most, some such number. */
static size_t distance(const char *one, const char *other, size_t most)
{
	size_t row[MOST_NAME + 1];
	const size_t wide = strlen(other), long_one = strlen(one);
	const size_t apart = 2 * (wide > long_one ? wide - long_one : long_one - wide);
	if (apart >= most)
		return apart;
	for (size_t j = 0; j <= wide; j++)
		row[j] = 2 * j;
	for (size_t i = 0; i < long_one; i++) {
		size_t corner = row[0], best = row[0] = 2 * (i + 1);
		for (size_t j = 0; j < wide; j++) {
			const size_t changed = corner + cost(one[i], other[j]);
			corner = row[j + 1];
			row[j + 1] = least(changed, least(row[j], row[j + 1]) + 2);
			best = least(best, row[j + 1]);
		}
		if (best >= most)
			return best;
	}
	return row[wide];
}

/* The nearest so far, the best first. */
struct near {
	const struct label *label[NEAREST];
	size_t away[NEAREST], count;
};

/* A name among the nearest, where it is one of them; of equals the first in the region stays. */
static void compare_near(struct near *near, const struct label *label, const char *word)
{
	const size_t most = near->count < NEAREST ? (size_t)-1 : near->away[NEAREST - 1];
	const size_t whole = distance(word, label->name, most);
	const size_t away = label->brief == label->name
				    ? whole : least(whole, distance(word, label->brief, most));
	if (away >= most)
		return;
	size_t i = near->count < NEAREST ? near->count++ : NEAREST - 1;
	for (; i > 0 && near->away[i - 1] > away; i--) {
		near->away[i] = near->away[i - 1];
		near->label[i] = near->label[i - 1];
	}
	near->away[i] = away;
	near->label[i] = label;
}

/* A word that is longer than any name has none near it. */
size_t names_nearest(const struct names *names, const char *word, const struct label **nearest)
{
	struct near near = { .count = 0 };
	if (strlen(word) > MOST_NAME)
		return 0;
	for (size_t i = 0; i < names->count; i++)
		compare_near(&near, &names->label[i], word);
	for (size_t i = 0; i < near.count; i++)
		nearest[i] = near.label[i];
	return near.count;
}

/* ---- values ---- */

/* A number as a setting's bytes, the lowest first. */
bool names_number(const struct label *label, uint64_t number, uint8_t *bytes)
{
	if (label->length < 8 && number >> (8 * label->length) != 0)
		return false;
	for (uint32_t i = 0; i < label->length; i++)
		bytes[i] = (uint8_t)(i < 8 ? number >> (8 * i) : 0);
	return true;
}

/* The number that a setting's first eight bytes are. */
uint64_t names_as_number(const struct label *label, const uint8_t *bytes)
{
	uint64_t number = 0;
	for (uint32_t i = label->length < 8 ? label->length : 8; i > 0; i--)
		number = number << 8 | bytes[i - 1];
	return number;
}

/* A setting is that number, whatever its length. */
static bool is_number(const struct label *label, const uint8_t *bytes, uint64_t number)
{
	for (uint32_t i = 8; i < label->length; i++)
		if (bytes[i] != 0)
			return false;
	return names_as_number(label, bytes) == number;
}

/* The words of the first choice that is these bytes. */
const char *names_words(const struct label *label, const uint8_t *bytes)
{
	for (size_t i = 0; i < label->choices; i++)
		if (is_number(label, bytes, label->choice[i].value))
			return label->choice[i].words;
	return NULL;
}

/* The choice with these words that fits the setting; words for two values are for neither. */
enum names_sought names_value(const struct label *label, const char *words, uint8_t *bytes)
{
	const struct choice *found = NULL;
	for (size_t i = 0; i < label->choices; i++) {
		const struct choice *choice = &label->choice[i];
		if (strcmp(choice->words, words) != 0)
			continue;
		if (found != NULL && found->value != choice->value)
			return NAME_SEVERAL;
		found = choice;
	}
	return found != NULL && names_number(label, found->value, bytes) ? NAME_FOUND : NAME_UNKNOWN;
}

/* ---- defaults ---- */

/* Names outside the settings are left out: the library hands out none of their bytes. */
struct names_differing names_defaults_differ(const struct names *names,
					     const struct settings *settings)
{
	struct names_differing d = { .differ = 0 };
	for (size_t i = 0; i < names->count; i++) {
		const struct label *label = &names->label[i];
		if (label->given == NULL || label->offset < settings->first ||
		    label->offset > settings->end || label->length > settings->end - label->offset)
			continue;
		d.compared++;
		if (memcmp(label->given, settings->at + (label->offset - settings->first),
			   label->length) == 0)
			continue;
		if (d.differ < FIRST_DIFFERENT)
			d.first[d.differ] = label;
		d.differ++;
	}
	return d;
}
