/* The page's table of ranges: both bytes of each, a long list cut with its count. */
#include <inttypes.h>

#include "edition.h"
#include "mending.h"
#include "page.h"
#include "signs.h"

/* How many ranges are listed. */
#define MOST_ROWS ((uint64_t)1000)

/* A table: its heading, the ranges of which kinds, and how many ranges and bytes they are. */
struct table {
	const char *before, *of;
	const char *class, *is;
	bool strays, settings;
	uint64_t ranges, bytes;
};

/* Of a verify: who sets it, and whether it is still the maker's. */
static void put_setter(FILE *to, const struct range *range)
{
	fputs("<td>", to);
	if (range->stray)
		fputs("outside the settings", to);
	else if (range->set.sheet == 0)
		fputs("no sheet sets it", to);
	else
		fprintf(to, "sheet %" PRIu32 ", entry %" PRIu32 ": <strong>%s</strong>", range->set.sheet,
			range->set.entry,
			range->set.changed ? "neither the sheet's nor the maker's" : "still as the maker's");
	fputs("</td>", to);
}

/* A range's row. */
static void put_row(const struct page *page, const struct ranges *ranges, const struct range *range)
{
	const struct check *check = page->check;
	struct change change;
	struct made made;
	const bool setting = range_change(ranges, range, &change);
	FILE *to = page->to;
	fprintf(to, "<tr class=\"%s\"><td>%s</td><td class=\"at\">%" PRIu64 "..%" PRIu64
		"</td><td class=\"number\">%" PRIu64 "</td><td class=\"where\">", range->stray ? "stray" : "setting",
		range->stray ? "X stray" : "S setting", range->first, range->last, length_of(range));
	if (begin_made(&made))
		put_where(made.line, ranges, range);
	end_made(to, &made);
	if (setting)
		put_page_names(page, &change, check->verify ? " is " : " -> ");
	fputs("</td><td class=\"bytes\">", to);
	put_cut_bytes(to, &check->reference, range->first, length_of(range));
	if (setting)
		put_page_number(to, change.old, change.length);
	fputs("</td><td class=\"bytes\">", to);
	put_cut_bytes(to, &check->shipped.bytes, range->first, length_of(range));
	if (setting)
		put_page_number(to, change.new, change.length);
	fputs("</td>", to);
	if (check->verify)
		put_setter(to, range);
	fputs("</tr>\n", to);
}

/* The first ranges of the table, and how many bytes they have. */
static uint64_t put_rows(const struct page *page, const struct table *table)
{
	uint64_t bytes = 0, rows = 0;
	struct ranges ranges;
	struct range range;
	start_ranges(&ranges, page->check);
	while (rows < MOST_ROWS && next_range(&ranges, &range)) {
		if (!(range.stray ? table->strays : table->settings))
			continue;
		put_row(page, &ranges, &range);
		bytes += length_of(&range);
		rows++;
	}
	return bytes;
}

/* How much is left out of the table, and where all of it is. */
static void put_rest(const struct page *page, uint64_t ranges, uint64_t bytes)
{
	FILE *to = page->to;
	fputs("<p class=\"note rest\">… and ", to);
	put_plural(to, ranges, "more range", "more ranges");
	fputs(" with ", to);
	put_plural(to, bytes, "byte", "bytes");
	fputs(". ", to);
	if (page->text != NULL) {
		fputs("Every range is in ", to);
		put_page_text(to, page->text->name);
		fputs(", the whole list.", to);
	} else {
		fputs("The option --text FILE writes every one of them beside this page.", to);
	}
	fputs("</p>\n", to);
}

/* The table, or the sentence that it would be empty. */
static void put_table(const struct page *page, const struct table *table)
{
	FILE *to = page->to;
	fprintf(to, "<section>\n<h2>%s%s</h2>\n", table->before, table->of);
	if (table->ranges == 0) {
		fputs("<p>None.</p>\n</section>\n", to);
		return;
	}
	fprintf(to, "<table class=\"ranges %s\">\n<thead><tr><th>Kind</th><th>Position</th>"
		"<th class=\"number\">Bytes</th><th>Where</th><th>%s</th><th>%s</th>%s"
		"</tr></thead>\n<tbody>\n", table->class,
		page->check->verify ? "Should be" : is_older(page->check->reading) ? "Maker's" : "Maker's, moved", table->is,
		page->check->verify ? "<th>Set by</th>" : "");
	const uint64_t bytes = put_rows(page, table);
	fputs("</tbody>\n</table>\n", to);
	if (table->ranges > MOST_ROWS)
		put_rest(page, table->ranges - MOST_ROWS, table->bytes - bytes);
	fputs("</section>\n", to);
}

/* All differences in one table; of a mending what was put back and what is left apart, as both were in the shipped file. */
void put_ranges(const struct page *page, const struct tally *tally)
{
	const uint64_t all = differences(&page->check->found);
	const struct table whole = { "Differences from ", reference_name(page->check),
				     page->check->verify ? "verified" : "audited", "Is", true, true, tally->ranges, all };
	const struct table back = { "Put back", "", "audited mended", "Was", true, false, tally->stray_ranges,
				    tally->strays };
	const struct table left = { "What is left: settings", "", "audited", "Is", false, true,
				    tally->ranges - tally->stray_ranges, all - tally->strays };
	if (!is_mending(page->check)) {
		put_table(page, &whole);
		return;
	}
	put_table(page, &back);
	put_table(page, &left);
}
