/* The page's list of what isn't the maker's any more: which settings, by which sheet, by whom. */
#include <inttypes.h>

#include "page.h"
#include "show.h"
#include "signs.h"

/* How many are listed. */
#define MOST_CHANGED ((uint64_t)500)

/* Who set it. */
static void put_setter(const struct page *page, const struct range *range)
{
	const struct check *check = page->check;
	if (range->set.sheet == 0) {
		fputs("<strong>no sheet</strong></td><td>", page->to);
		return;
	}
	const struct releaser *releaser = &check->releasers[range->set.sheet - 1];
	fprintf(page->to, "Sheet %" PRIu32 ", entry %" PRIu32 "</td><td>", range->set.sheet, range->set.entry);
	if (releaser->list == NULL)
		fputs("not checked", page->to);
	else
		fprintf(page->to, "owner %" PRIu64, releaser->owner);
}

/* A range's row. */
static void put_row(const struct page *page, const struct ranges *ranges, const struct range *range)
{
	const struct check *check = page->check;
	const uint64_t length = length_of(range);
	fputs("<tr><td class=\"at\">", page->to);
	show_offset(page->to, range->first - ranges->map.region);
	fprintf(page->to, " at %" PRIu64 "</td><td class=\"bytes\">", range->first);
	put_cut_bytes(page->to, &check->vendor.bytes, range->first, length);
	fputs("</td><td class=\"bytes\">", page->to);
	put_cut_bytes(page->to, &check->shipped.bytes, range->first, length);
	fputs("</td><td>", page->to);
	put_setter(page, range);
	fputs("</td></tr>\n", page->to);
}

/* All of it, a long list cut with its count; nothing in an audit. */
void put_changed_settings(const struct page *page)
{
	struct ranges ranges;
	struct range range;
	uint64_t count = 0;
	if (!page->check->verify)
		return;
	fputs("<section>\n<h2>Settings that aren't the maker's any more</h2>\n<table class=\"settled\">\n<thead><tr>"
	      "<th>Offset and position</th><th>Maker's</th><th>In the shipped file</th><th>Set by</th>"
	      "<th>Released by</th></tr></thead>\n<tbody>\n", page->to);
	start_changes(&ranges, page->check);
	while (next_range(&ranges, &range))
		if (!range.stray && ++count <= MOST_CHANGED)
			put_row(page, &ranges, &range);
	fputs("</tbody>\n</table>\n", page->to);
	if (count > MOST_CHANGED)
		fprintf(page->to, "<p class=\"note\">… and %" PRIu64 " more; <code>pajurenda verify</code> lists all.</p>\n",
			count - MOST_CHANGED);
	if (count == 0)
		fputs("<p>None.</p>\n", page->to);
	fputs("</section>\n", page->to);
}
