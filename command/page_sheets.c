/* The page's sheets: every entry, what it replaces, and what the file has of it. */
#include <inttypes.h>

#include "letters.h"
#include "page.h"
#include "signs.h"

/* How many entries are listed, of all sheets together. */
#define MOST_LISTED ((uint64_t)500)

/* An entry as it stands in its sheet. */
struct listed {
	size_t sheet;
	uint64_t index, offset, length, body;
};

static struct listed listed_at(const struct check *check, size_t sheet, uint64_t index)
{
	const struct bytes *bytes = &check->sheets[sheet].bytes;
	const uint64_t at = PAJURENDA_EMPTY_SHEET + PAJURENDA_ENTRY_BYTES * index;
	return (struct listed){ sheet, index, number_at(bytes, at, 4), number_at(bytes, at + 4, 2),
				number_at(bytes, at + 6, 2) };
}

/* The entry sets what the maker's image has already. */
static bool is_idle(const struct check *check, const struct listed *entry)
{
	struct change change;
	return entry_change(&check->vendor.bytes, &check->sheets[entry->sheet].bytes, entry->index, &change) &&
	       count_changed(&change) == 0;
}

/* How many entries of all sheets do so, and how many there are. */
uint64_t count_idle(const struct check *check, uint64_t *entries)
{
	uint64_t idle = 0;
	*entries = 0;
	for (size_t sheet = 0; sheet < check->sheet_count; sheet++) {
		const uint64_t count = number_at(&check->sheets[sheet].bytes, 12, 2);
		*entries += count;
		for (uint64_t i = 0; i < count; i++) {
			const struct listed entry = listed_at(check, sheet, i);
			idle += is_idle(check, &entry);
		}
	}
	return idle;
}

/* What the file has of an entry: by the audits, byte by byte. */
static const char *state_of(const struct check *check, const struct listed *entry)
{
	uint64_t again = 0, makers = 0, changed = 0;
	const uint64_t size = pajurenda_field(check->reading, PAJURENDA_READ_SIZE);
	for (uint64_t k = 0; k < entry->length && entry->offset + k < size; k++) {
		const struct settled *byte = &check->settled[entry->offset + k];
		const bool own = byte->sheet == entry->sheet + 1;
		again += !own;
		makers += own && byte->differs && !byte->changed;
		changed += own && byte->differs && byte->changed;
	}
	if (changed > 0)
		return "<strong>otherwise</strong>";
	if (makers > 0)
		return makers == entry->length ? "<strong>still as the maker's</strong>"
					       : "<strong>in part still as the maker's</strong>";
	if (again > 0)
		return again == entry->length ? "set again by a later sheet"
					      : "as set; in part set again by a later sheet";
	return is_idle(check, entry) ? "changes nothing" : "as set";
}

/* An entry's row. */
static void put_entry(const struct page *page, const struct listed *entry)
{
	const struct check *check = page->check;
	struct change change;
	const bool found = entry_change(&check->vendor.bytes, &check->sheets[entry->sheet].bytes, entry->index,
					&change);
	const uint64_t place = pajurenda_field(check->reading, PAJURENDA_READ_REGION) + entry->offset;
	fprintf(page->to, "<tr><td class=\"number\">%" PRIu64 "</td><td class=\"at\">0x%04" PRIX64 " at %" PRIu64,
		entry->index, entry->offset, place);
	if (found)
		put_page_names(page, &change, " -> ");
	fprintf(page->to, "</td><td class=\"number\">%" PRIu64 "</td><td class=\"bytes\">", entry->length);
	put_cut_bytes(page->to, &check->sheets[entry->sheet].bytes, entry->body, entry->length);
	if (found)
		put_page_number(page->to, change.new, change.length);
	fputs("</td><td class=\"bytes\">", page->to);
	put_cut_bytes(page->to, &check->vendor.bytes, place, entry->length);
	if (found)
		put_page_number(page->to, change.old, change.length);
	fprintf(page->to, "</td><td>%s</td></tr>\n", state_of(check, entry));
}

/* A sheet's table; how many entries were listed. */
static uint64_t put_entries(const struct page *page, size_t sheet, uint64_t most)
{
	const uint64_t count = number_at(&page->check->sheets[sheet].bytes, 12, 2);
	uint64_t i = 0;
	fputs("<table class=\"entries\">\n<thead><tr><th class=\"number\">Entry</th>"
	      "<th>Offset and position</th><th class=\"number\">Bytes</th><th>Sets</th>"
	      "<th>Maker's</th><th>In the shipped file</th></tr></thead>\n<tbody>\n", page->to);
	for (; i < count && i < most; i++) {
		const struct listed entry = listed_at(page->check, sheet, i);
		put_entry(page, &entry);
	}
	fputs("</tbody>\n</table>\n", page->to);
	if (i < count)
		fprintf(page->to, "<p class=\"note\">… and %" PRIu64 " more entries; "
			"<code>pajurenda sheet show</code> lists all.</p>\n", count - i);
	return i;
}

/* A sheet by its number and name. */
static uint64_t put_sheet(const struct page *page, size_t sheet, uint64_t most)
{
	const struct named *named = &page->check->sheets[sheet];
	const uint64_t count = number_at(&named->bytes, 12, 2);
	fprintf(page->to, "<h3>Sheet %zu: ", sheet + 1);
	put_page_text(page->to, named->name);
	fputs("</h3>\n", page->to);
	if (count > 0)
		return put_entries(page, sheet, most);
	fputs("<p>No entries: it sets nothing.</p>\n", page->to);
	return 0;
}

/* All sheets, in the order they were applied; nothing in an audit. */
void put_sheets(const struct page *page)
{
	uint64_t left = MOST_LISTED;
	if (!page->check->verify)
		return;
	fputs("<section>\n<h2>The release sheets, in the order they were applied</h2>\n", page->to);
	for (size_t i = 0; i < page->check->sheet_count; i++)
		left -= put_sheet(page, i, left);
	fputs("</section>\n", page->to);
}
