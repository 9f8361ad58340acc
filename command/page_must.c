/* The page's names, and its table of what must be, right under the verdict. */
#define _XOPEN_SOURCE 700

#include <inttypes.h>
#include <stdlib.h>
#include <string.h>

#include "page.h"
#include "show.h"
#include "signs.h"

/* What stands in the place of what there was no memory for. */
static char none[] = "no memory to show it";

/* ---- lines as text of the page ---- */

/* What is to be known of the names before anything that is named, a paragraph a line. */
void put_page_naming(const struct page *page)
{
	const struct naming *naming = &page->check->naming;
	char *at = NULL;
	size_t length = 0;
	if (naming->file.name == NULL)
		return;
	FILE *lines = open_memstream(&at, &length);
	if (lines != NULL)
		put_naming(lines, "", naming);
	const bool whole = lines != NULL && fclose(lines) == 0;
	fprintf(page->to, "<section class=\"naming%s\">\n", naming->differing.differ == 0 ? "" : " differ");
	for (char *line = strtok(whole ? at : none, "\n"); line != NULL; line = strtok(NULL, "\n")) {
		fputs("<p>", page->to);
		put_page_text(page->to, line);
		fputs("</p>\n", page->to);
	}
	fputs("</section>\n", page->to);
	free(at);
}

/* The names that a change touches, with their values, in a cell. */
void put_page_names(const struct page *page, const struct change *change, const char *between)
{
	const struct names *names = names_of(&page->check->naming);
	char *at = NULL;
	size_t length = 0;
	if (names == NULL)
		return;
	FILE *line = open_memstream(&at, &length);
	if (line != NULL)
		put_names(line, names, change, between);
	const bool whole = line != NULL && fclose(line) == 0;
	fputs(" <div class=\"named\">", page->to);
	put_page_text(page->to, !whole ? none : length > 2 ? at + 2 : "no name");
	fputs("</div>", page->to);
	free(at);
}

/* The number that 2, 4 or 8 bytes of a setting are, beside them. */
void put_page_number(FILE *to, const uint8_t *bytes, uint64_t length)
{
	if (length != 2 && length != 4 && length != 8)
		return;
	put_number_of(to, " <span class=\"cut\">= ", bytes, (size_t)length);
	fputs("</span>", to);
}

/* ---- what must be ---- */

/* A value in a cell of its own. */
static void put_cell(FILE *to, const struct need *need, const uint8_t *bytes)
{
	char *at = NULL;
	size_t length = 0;
	FILE *line = open_memstream(&at, &length);
	fputs("<td class=\"bytes\">", to);
	if (line != NULL)
		put_need_value(line, need, bytes);
	put_page_text(to, line != NULL && fclose(line) == 0 ? at : none);
	free(at);
	fputs("</td>", to);
}

/* Held or not, in words. */
static void put_held(FILE *to, bool held)
{
	fputs(held ? "<td>held</td></tr>\n" : "<td><strong>not held</strong></td></tr>\n", to);
}

static void put_need(FILE *to, const struct need *need)
{
	fprintf(to, "<tr><td>0x%04" PRIX64 " at %" PRIu64, need->change.offset, need->change.place);
	if (need->label != NULL) {
		fputs(" <div class=\"named\">", to);
		put_page_text(to, need->label->name);
		if (need->label->title != NULL) {
			fputs(" “", to);
			put_page_text(to, need->label->title);
			fputs("”", to);
		}
		fputs("</div>", to);
	}
	fputs("</td>", to);
	put_cell(to, need, need->bytes);
	put_cell(to, need, need->is);
	put_cell(to, need, need->change.old);
	put_held(to, need->held);
}

/* The table, right under the verdict; nothing where nothing must be. */
void put_page_must(const struct page *page)
{
	const struct must *must = &page->check->must;
	FILE *to = page->to;
	if (must->file.name == NULL)
		return;
	fputs("<section>\n<h2>What must be, by ", to);
	put_page_text(to, must->file.name);
	fputs("</h2>\n<table class=\"needs\">\n<thead><tr><th>What</th><th>Must be</th><th>Is</th><th>Maker's</th>"
	      "<th>Held</th></tr></thead>\n<tbody>\n<tr><td>Base</td><td class=\"bytes\">", to);
	if (must->any_base)
		fputs("any", to);
	else
		fprintf(to, "0x%08" PRIX64, must->base);
	fprintf(to, "</td><td class=\"bytes\">0x%08" PRIX64 "</td><td class=\"bytes\">0x%08" PRIX64 "</td>",
		must->is_base, must->makers_base);
	put_held(to, is_base_held(must));
	for (size_t i = 0; i < must->count; i++)
		put_need(to, &must->need[i]);
	fputs("</tbody>\n</table>\n</section>\n", to);
}
