/* The page to file: its frame, and how it is saved. */
#define _XOPEN_SOURCE 700

#include "page.h"

#include <inttypes.h>
#include <stdlib.h>

#include "files.h"
#include "letters.h"
#include "mending.h"
#include "messages.h"
#include "signs.h"

/* How many bytes of a range or an entry are shown. */
#define MOST_BYTES ((uint64_t)24)

/* ---- small ones ---- */

/* A line begun; false where there is no memory for it, which end_made then says. */
bool begin_made(struct made *made)
{
	*made = (struct made){ .at = NULL };
	made->line = open_memstream(&made->at, &made->length);
	return made->line != NULL;
}

/* The line as text of the page. */
void end_made(FILE *to, struct made *made)
{
	const bool whole = made->line != NULL && fclose(made->line) == 0;
	put_page_text(to, whole ? made->at : "no memory to show it");
	free(made->at);
}

/* A count with its word. */
void put_plural(FILE *to, uint64_t count, const char *one, const char *many)
{
	fprintf(to, "%" PRIu64 " %s", count, count == 1 ? one : many);
}

/* Bytes in hex with a blank between them, a long row cut with the count of the rest. */
void put_cut_bytes(FILE *to, const struct bytes *file, uint64_t at, uint64_t length)
{
	const uint64_t shown = length <= MOST_BYTES ? length : MOST_BYTES;
	if (!has_bytes(file, at, length))
		return;
	for (uint64_t i = 0; i < shown; i++)
		fprintf(to, "%s%02X", i == 0 ? "" : " ", (unsigned)file->at[at + i]);
	if (shown < length)
		fprintf(to, " <span class=\"cut\">… %" PRIu64 " more</span>", length - shown);
}

/* The bytes of one range counted under its kind. */
static void count_range(struct tally *tally, const struct range *range)
{
	const uint64_t length = length_of(range);
	tally->ranges++;
	tally->stray_ranges += range->stray;
	if (range->stray)
		tally->strays += length;
	else if (range->set.sheet == 0)
		tally->others += length;
	else
		tally->sheets += length;
	if (!range->stray && range->set.sheet != 0 && !range->set.changed)
		tally->makers += length;
}

/* All ranges counted. */
static void take_tally(const struct check *check, struct tally *tally)
{
	struct ranges ranges;
	struct range range;
	start_ranges(&ranges, check);
	while (next_range(&ranges, &range))
		count_range(tally, &range);
}

/* ---- the frame ---- */

/* The verdict, and what must be beside it. */
void put_verdict_words(const struct page *page)
{
	const char *required = required_of(page->check);
	fputs(verdict_of(page->check), page->to);
	if (required != NULL)
		fprintf(page->to, ", %s", required);
	if (open_of(page->check) != NULL)
		fprintf(page->to, ", %s", open_of(page->check));
}

/* Nothing may be fetched and no script run, even where one came to stand in the page. */
static void put_head(const struct page *page)
{
	fputs("<!DOCTYPE html>\n<html lang=\"en\">\n<head>\n<meta charset=\"utf-8\">\n"
	      "<meta http-equiv=\"Content-Security-Policy\" content=\"default-src 'none'; "
	      "style-src 'unsafe-inline'\">\n"
	      "<meta name=\"viewport\" content=\"width=device-width, initial-scale=1\">\n"
	      "<title>", page->to);
	fputs(page->check->verify ? "Verify: " : is_mending(page->check) ? "Mend: " : "Audit: ", page->to);
	put_verdict_words(page);
	fputs(": ", page->to);
	put_title_text(page->to, page->check->shipped.name);
	fputs("</title>\n<style>\n", page->to);
	put_style(page->to, page->name, page->check->options->number);
	fputs("</style>\n</head>\n<body>\n<main>\n", page->to);
}

/* What is signed: the files, and under them the names. Where both fit a sheet they stand on one; more files than that
   go over to the next, and so what the names are under stands with them in any case. */
static void put_signed(const struct page *page)
{
	fputs("<div class=\"signed\">\n", page->to);
	put_files(page);
	fputs("<div class=\"signing\">\n", page->to);
	put_signed_for(page);
	put_sign_off(page->to);
	fputs("</div>\n</div>\n", page->to);
}

/* What stands behind it, of an accepted check; on paper from a new sheet on. */
static void put_behind(const struct page *page)
{
	fputs("<div class=\"behind\">\n", page->to);
	if (is_mending(page->check))
		fputs("<section>\n<p class=\"note\">From here on the shipped file is shown as it came, before anything was put "
		      "back.</p>\n</section>\n", page->to);
	put_maps(page);
	put_facts(page);
	put_sheets(page);
	put_changed_settings(page);
	put_words(page);
	put_about(page);
	fputs("</div>\n", page->to);
}

/* The whole page: what is signed, then what stands behind it; of a refused check no differences and no maps. */
static void put_page(const struct page *page)
{
	const bool refused = page->check->number != PAJURENDA_ACCEPTED;
	struct tally tally = { .ranges = 0 };
	if (!refused)
		take_tally(page->check, &tally);
	put_head(page);
	put_top(page);
	put_page_naming(page);
	put_verdict(page, &tally);
	if (!refused) {
		put_page_must(page);
		put_ranges(page, &tally);
	}
	put_signed(page);
	if (refused)
		put_about(page);
	else
		put_behind(page);
	fputs("</main>\n</body>\n</html>\n", page->to);
}

/* The page in memory of its own, to be let go; false after a message. */
bool make_page(const struct check *check, const struct named *text, struct output *made)
{
	char *at = NULL;
	size_t length = 0;
	const struct page page = { .to = open_memstream(&at, &length), .name = made->name, .check = check, .text = text };
	if (page.to == NULL) {
		fail_no_memory(made->name);
		return false;
	}
	put_page(&page);
	const bool whole = ferror(page.to) == 0;
	const bool closed = fclose(page.to) == 0;
	made->bytes = (struct bytes){ .at = (uint8_t *)at, .length = length };
	if (!whole || !closed)
		fail_no_memory(made->name);
	return whole && closed;
}
