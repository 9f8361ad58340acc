/*
 * The page's maps: the image and its region drawn to scale, a lane for each kind of thing, so that no
 * kind is told by its colour alone. Marks that would fall on one another are one mark.
 */
#include <inttypes.h>
#include <string.h>

#include "edition.h"
#include "letters.h"
#include "page.h"
#include "page_lane.h"

/* Bytes of FF before the volume's end that are worth a part. */
#define LEAST_FREE ((uint64_t)16)

/* How many of them are looked at together. */
#define BLOCK ((uint64_t)4096)

/* A stretch of the image under a name. */
struct part {
	const char *class, *name;
	uint64_t first, length;
};

#define MOST_PARTS 8

struct parts {
	struct part part[MOST_PARTS];
	size_t count;
};

/* What a lane of differences shows. */
enum kind { ANY_SETTING, SHEET_SETTING, OTHER_SETTING, ANY_STRAY };

/* ---- parts ---- */

static void add_part(struct parts *parts, const char *class, const char *name, uint64_t first,
		     uint64_t length)
{
	if (length > 0 && parts->count < MOST_PARTS)
		parts->part[parts->count++] = (struct part){ class, name, first, length };
}

/* A whole block before a position is FF: its last byte is, and each other is as the one after it. */
static bool is_block_free(const uint8_t *end)
{
	return end[-1] == 0xFF && memcmp(end - BLOCK, end - BLOCK + 1, BLOCK - 1) == 0;
}

/* How many bytes before a position are all FF; a free end may be nearly all of an image, so block by block first. */
static uint64_t count_free(const struct bytes *image, uint64_t end)
{
	uint64_t count = 0;
	if (end > image->length)
		return 0;
	while (end - count >= BLOCK && is_block_free(image->at + (end - count)))
		count += BLOCK;
	while (count < end && image->at[end - 1 - count] == 0xFF)
		count++;
	return count < LEAST_FREE ? 0 : count;
}

/* The parts of an image that the library has read, the wider ones first. */
static struct parts parts_of(const struct bytes *image, const uint8_t *reading)
{
	const struct letters w = letters_of(image);
	const uint64_t header = pajurenda_field(reading, PAJURENDA_READ_HEADER);
	const uint64_t region = pajurenda_field(reading, PAJURENDA_READ_REGION);
	const uint64_t size = pajurenda_field(reading, PAJURENDA_READ_SIZE);
	const uint64_t free_end = count_free(image, w.V);
	struct parts parts = { .count = 0 };
	add_part(&parts, "p-volume", "Volume header", 0, w.h);
	add_part(&parts, "p-volume", "Volume's extended header", w.x, w.x == 0 ? 0 : w.e);
	add_part(&parts, "p-file", "Header file", w.f, w.s);
	add_part(&parts, "p-tables", is_older(reading) ? "FSP header" : "FSP header and tables", header,
		 header_end(image, reading) - header);
	if (!is_older(reading))
		add_part(&parts, "p-region", "Configuration region", region, size);
	add_part(&parts, "p-free", "Free end (all FF)", w.V - free_end, free_end);
	add_part(&parts, "p-after", "After the volume", w.V, image->length - w.V);
	return parts;
}

/* ---- what the lanes show ---- */

/* A range belongs to a lane. */
static bool is_of(enum kind kind, const struct range *range)
{
	switch (kind) {
	case ANY_SETTING: return !range->stray;
	case SHEET_SETTING: return !range->stray && range->set.sheet != 0;
	case OTHER_SETTING: return !range->stray && range->set.sheet == 0;
	default: return range->stray;
	}
}

/* The class and the name of a lane of differences. */
static const char *const kinds[][2] = {
	[ANY_SETTING] = { "settings", "Settings that differ" },
	[SHEET_SETTING] = { "sheets", "Not as a sheet sets it" },
	[OTHER_SETTING] = { "others", "Changed, by no sheet" },
	[ANY_STRAY] = { "strays", "Strays" },
};

/* The differences of one kind in a stretch. */
static void put_differences(FILE *to, struct ranges *ranges, enum kind kind, uint64_t start,
			    uint64_t length)
{
	struct lane lane = begin_lane(to, kinds[kind][0], kinds[kind][1], start, length);
	struct range range;
	start_ranges(ranges, ranges->check);
	while (next_range(ranges, &range))
		if (is_of(kind, &range))
			mark_lane(&lane, range.first, range.last);
	end_lane(&lane);
}

/* Every kind of difference in a stretch. */
static void put_kinds(FILE *to, struct ranges *ranges, uint64_t start, uint64_t length)
{
	if (ranges->check->verify) {
		put_differences(to, ranges, SHEET_SETTING, start, length);
		put_differences(to, ranges, OTHER_SETTING, start, length);
	} else if (!is_older(ranges->check->reading)) {
		put_differences(to, ranges, ANY_SETTING, start, length);
	}
	put_differences(to, ranges, ANY_STRAY, start, length);
}

/* The modules, each with its section's header. */
static void put_modules(FILE *to, const struct contents *contents, uint64_t length)
{
	struct lane lane = begin_lane(to, "modules", "Modules", 0, length);
	for (uint64_t i = 0; i < count_modules(contents); i++)
		mark_lane(&lane, contents->modules[i].section, contents->modules[i].end - 1);
	end_lane(&lane);
}

/* The words that a move changes, in order of position. */
static void put_moved(FILE *to, const struct contents *contents, uint64_t length)
{
	struct lane lane = begin_lane(to, "moved", "Moved words", 0, length);
	for (uint64_t i = 0; i < count_moved(contents); i++) {
		const struct word word = word_at(contents, contents->spots[i].entry);
		mark_lane(&lane, word.at, word.at + word.width - 1);
	}
	end_lane(&lane);
}

/* The image's parts, the wider below the narrower. */
static void put_parts(FILE *to, const struct parts *parts, uint64_t length)
{
	struct lane lane = begin_lane(to, "parts", "The image", 0, length);
	put_box(&lane, "p-rest", 0, length - 1);
	fputs("</rect>", to);
	for (size_t i = 0; i < parts->count; i++) {
		const struct part *part = &parts->part[i];
		put_box(&lane, part->class, part->first, part->first + part->length - 1);
		fprintf(to, "<title>%s</title></rect>", part->name);
	}
	end_lane(&lane);
}

/* What each part's box is, and where it lies. */
static void put_legend(FILE *to, const struct parts *parts)
{
	fputs("<ul class=\"legend\">\n", to);
	for (size_t i = 0; i < parts->count; i++) {
		const struct part *part = &parts->part[i];
		fprintf(to, "<li><svg class=\"parts\" viewBox=\"0 0 10 10\" aria-hidden=\"true\">"
			"<rect class=\"%s\" x=\"0\" y=\"0\" width=\"10\" height=\"10\"/></svg>%s ",
			part->class, part->name);
		fprintf(to, "<span class=\"at\">%" PRIu64 "..%" PRIu64 "</span></li>\n", part->first,
			part->first + part->length - 1);
	}
	fputs("</ul>\n", to);
}

/* ---- the two maps ---- */

/* The sheets' settings in the region. */
static void put_set(FILE *to, const struct check *check, uint64_t region, uint64_t size)
{
	struct lane lane = begin_lane(to, "set", "Set by a sheet", region, size);
	for (uint64_t i = 0; i < size; i++)
		if (check->settled[i].sheet != 0)
			mark_lane(&lane, region + i, region + i);
	end_lane(&lane);
}

/* The region once more, enlarged. */
static void put_region(FILE *to, struct ranges *ranges)
{
	const struct check *check = ranges->check;
	const uint64_t region = ranges->map.region;
	const uint64_t size = pajurenda_field(check->reading, PAJURENDA_READ_SIZE);
	struct lane lane;
	fprintf(to, "<h3>The configuration region, enlarged</h3>\n<div class=\"map\" id=\"region\">\n");
	lane = begin_lane(to, "parts", "The region", region, size);
	put_box(&lane, "p-region", region, region + size - 1);
	fputs("<title>Settings</title></rect>", to);
	put_box(&lane, "p-file", region, region + 31);
	fputs("<title>Region header</title></rect>", to);
	end_lane(&lane);
	if (check->verify)
		put_set(to, check, region, size);
	put_kinds(to, ranges, region, size);
	put_scale(to, region, size);
	fputs("</div>\n<p class=\"note\">The dark start is the region's header of 32 bytes, which no sheet "
	      "sets.</p>\n", to);
}

/* Both maps. */
void put_maps(const struct page *page)
{
	const struct bytes *image = &page->check->vendor.bytes;
	const struct contents *contents = &page->check->contents;
	const struct parts parts = parts_of(image, page->check->reading);
	struct ranges ranges;
	start_ranges(&ranges, page->check);
	fputs("<section>\n<h2>Map of the image</h2>\n<div class=\"map\" id=\"image\">\n", page->to);
	put_parts(page->to, &parts, image->length);
	if (count_modules(contents) > 0)
		put_modules(page->to, contents, image->length);
	if (count_moved(contents) > 0)
		put_moved(page->to, contents, image->length);
	put_kinds(page->to, &ranges, 0, image->length);
	put_scale(page->to, 0, image->length);
	put_legend(page->to, &parts);
	fputs("</div>\n", page->to);
	if (!is_older(page->check->reading))
		put_region(page->to, &ranges);
	fputs("<p class=\"note\">Drawn to scale by position, in bytes; a mark is never thinner than can be "
	      "seen, and marks that would touch are one.</p>\n</section>\n", page->to);
}
