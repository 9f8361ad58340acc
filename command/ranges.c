/*
 * The audit's list as ranges: neighbouring positions of one kind, cut where the place they lie in
 * changes. The kinds are the library's; the places are those of its reading of the vendor's image and
 * of its list of what is inside.
 */
#include "ranges.h"

#include "edition.h"
#include "fields.h"

/* ---- where a position lies ---- */

/* The rooms of an image, from its start; one of edition 1 has no region that was judged. */
static struct map map_rooms(const struct check *check)
{
	const uint8_t *reading = check->reading;
	struct map map = {
		.contents = &check->contents,
		.letters = letters_of(&check->vendor.bytes),
		.older = is_older(reading),
		.header = pajurenda_field(reading, PAJURENDA_READ_HEADER),
		.end = header_end(&check->vendor.bytes, reading),
		.region = is_older(reading) ? NO_REGION : pajurenda_field(reading, PAJURENDA_READ_REGION),
	};
	start_stretches(&map.stretches, &check->vendor.bytes);
	(void)next_stretch(&map.stretches, &map.stretch);
	return map;
}

/* A position in no other room: within the first volume elsewhere, after it in another volume or in none. */
static void find_stretch(struct map *map, uint64_t at, struct lying *lying)
{
	while (at >= map->stretch.place + map->stretch.length && next_stretch(&map->stretches, &map->stretch))
		;
	lying->room = map->stretch.place == 0 ? ELSEWHERE : map->stretch.number == 0 ? AFTER_VOLUME : IN_VOLUME;
	lying->index = lying->room == IN_VOLUME ? map->stretch.number : 0;
}

/* The base word of an edition 1 image, whose words are in no list. */
static bool is_older_base(const struct map *map, uint64_t at)
{
	return map->older && at >= map->header + 28 && at < map->header + 32;
}

/* The module that holds a position, positions coming in order: its section, with the header. */
static uint64_t find_module(struct map *map, uint64_t at)
{
	const struct module *modules = map->contents->modules;
	const uint64_t count = count_modules(map->contents);
	while (map->modules < count && at >= modules[map->modules].end)
		map->modules++;
	return map->modules < count && at >= modules[map->modules].section ? map->modules : NO_MODULE;
}

/* The word that has a position, positions coming in order; false where none has. */
static bool find_word(struct map *map, uint64_t at, struct word *word)
{
	const struct spot *spots = map->contents->spots;
	while (map->words < count_moved(map->contents) && at >= spots[map->words].at) {
		*word = word_at(map->contents, spots[map->words].entry);
		if (at < word->at + word->width)
			return true;
		map->words++;
	}
	return false;
}

/* A stray's room. */
static struct lying find_room(struct map *map, uint64_t at)
{
	struct lying lying = { .room = ELSEWHERE, .module = find_module(map, at) };
	struct word word;
	if (find_word(map, at, &word)) {
		lying.room = word.room;
		lying.index = word.index;
	} else if (is_older_base(map, at)) {
		lying.room = BASE_WORD;
	} else if (at >= map->header && at < map->end) {
		lying.room = map->older ? FSP_HEADER : TABLES;
		lying.index = map->older ? 0 : field_at(&map->letters, at);
	} else if (at >= map->region && at - map->region < 32) {
		lying.room = REGION_HEADER;
	} else if (lying.module != NO_MODULE) {
		lying.room = MODULE_BYTES;
	} else {
		find_stretch(map, at, &lying);
	}
	return lying;
}

/* What the sheets make of a setting; nothing in an audit. */
static struct settled settled_at(const struct ranges *ranges, uint64_t at)
{
	const struct check *check = ranges->check;
	const uint64_t size = pajurenda_field(check->reading, PAJURENDA_READ_SIZE);
	const uint64_t offset = at - ranges->map.region;
	if (check->settled == NULL || offset >= size)
		return (struct settled){ .sheet = 0 };
	return check->settled[offset];
}

/* The i-th place as a range of one; the library says which is a setting. */
static struct range range_of(struct ranges *ranges, uint64_t i)
{
	const uint32_t place = pajurenda_place(ranges->findings->places, (size_t)i);
	const uint64_t at = pajurenda_position(place);
	struct range range = { .stray = pajurenda_is_stray(place) != 0, .first = at, .last = at,
			       .where = { .room = SETTINGS } };
	if (range.stray) {
		range.where = find_room(&ranges->map, at);
		return range;
	}
	range.where.module = find_module(&ranges->map, at);
	range.set = settled_at(ranges, at);
	return range;
}

/* ---- one after the other ---- */

/* The one goes on where the other ends. */
static bool goes_on(const struct range *one, const struct range *next)
{
	return next->first == one->last + 1 && next->stray == one->stray &&
	       next->where.room == one->where.room && next->where.index == one->where.index &&
	       next->where.module == one->where.module &&
	       next->set.sheet == one->set.sheet && next->set.entry == one->set.entry &&
	       next->set.changed == one->set.changed;
}

/* A list of a check that the library has accepted, from its start. */
static void start_list(struct ranges *ranges, const struct check *check, const struct findings *findings)
{
	*ranges = (struct ranges){ .check = check, .findings = findings, .map = map_rooms(check),
				   .count = differences(findings) };
}

/* What differs from what the file should be. */
void start_ranges(struct ranges *ranges, const struct check *check)
{
	start_list(ranges, check, &check->found);
}

/* Of a verify: what differs from the maker's image moved. */
void start_changes(struct ranges *ranges, const struct check *check)
{
	start_list(ranges, check, &check->from_vendor);
}

/* The next range; false after the last. */
bool next_range(struct ranges *ranges, struct range *range)
{
	if (ranges->next == ranges->count)
		return false;
	*range = range_of(ranges, ranges->next++);
	while (ranges->next < ranges->count) {
		const struct range next = range_of(ranges, ranges->next);
		if (!goes_on(range, &next))
			break;
		range->last = next.last;
		ranges->next++;
	}
	return true;
}
