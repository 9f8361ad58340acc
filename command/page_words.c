/* The page's words: of those that the move changes the ones that are wrong, and how many are right. */
#include <inttypes.h>

#include "moved.h"
#include "page.h"

/* How many words are listed. */
#define MOST_WORDS ((uint64_t)200)

/* A word's row: in the maker's image, as the move makes it, and in the file. */
static void put_word(const struct page *page, const struct word *word)
{
	const struct bytes *files[] = { &page->check->vendor.bytes, &page->check->reference,
					&page->check->shipped.bytes };
	struct made made;
	FILE *to = page->to;
	fputs("<tr><td class=\"name\">", to);
	if (begin_made(&made))
		put_word_name(made.line, page->check, word);
	end_made(to, &made);
	fprintf(to, "</td><td class=\"number\">%" PRIu64 "</td>", word->at);
	for (size_t i = 0; i < 3; i++)
		fprintf(to, "<td class=\"bytes\">0x%0*" PRIX64 "%s</td>", (int)(2 * word->width),
			pajurenda_number(files[i]->at + word->at, (size_t)word->width),
			i == 2 ? " <strong>wrong</strong>" : "");
	fputs("</tr>\n", to);
}

/* The first of the wrong ones in the order of the move. */
static void put_wrong(const struct page *page)
{
	const struct contents *contents = &page->check->contents;
	uint64_t left = MOST_WORDS;
	for (uint64_t i = 0; i < count_entries(contents) && left > 0; i++) {
		if (!is_word(contents, i))
			continue;
		const struct word word = word_at(contents, i);
		if (is_right(page->check, &word))
			continue;
		put_word(page, &word);
		left--;
	}
}

/* How many are right, and the others; nothing of an edition 1 image, which isn't moved. */
void put_words(const struct page *page)
{
	const uint64_t all = count_moved(&page->check->contents), right = count_right(page->check);
	FILE *to = page->to;
	if (all == 0)
		return;
	fputs("<section>\n<h2>Words that the move changes</h2>\n<p class=\"count-right\">", to);
	fprintf(to, "%" PRIu64 " of %" PRIu64 " %s what the move makes of %s; <code>--text FILE</code> lists every one.</p>\n",
		right, all, right == 1 ? "word is" : "words are", right == 1 ? "it" : "them");
	if (right < all) {
		fputs("<table class=\"words\">\n<thead><tr><th>Word</th><th class=\"number\">At</th><th>Maker's</th>"
		      "<th>Should be</th><th>Is</th></tr></thead>\n<tbody>\n", to);
		put_wrong(page);
		fputs("</tbody>\n</table>\n", to);
	}
	if (all - right > MOST_WORDS)
		fprintf(to, "<p class=\"note\">… and %" PRIu64 " more that are wrong.</p>\n", all - right - MOST_WORDS);
	fputs("</section>\n", to);
}
