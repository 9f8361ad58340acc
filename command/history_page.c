/* The page of a history: a table of boards, and of what boards of one maker's image have otherwise. */
#define _XOPEN_SOURCE 700

#include <inttypes.h>
#include <stdlib.h>

#include "help.h"
#include "history.h"
#include "messages.h"
#include "page.h"
#include "pajurenda.h"
#include "show.h"
#include "signs.h"

/* A name and its words in a page. */
static void put_page_label(FILE *to, const struct board *board, size_t offset)
{
	const struct piece *label = offset < board->end ? board->label[offset] : NULL;
	if (label == NULL)
		return;
	fputc(' ', to);
	put_page_text(to, text_in(label, "name"));
	if (text_in(label, "new_words") != NULL) {
		fputs(" “", to);
		put_page_text(to, text_in(label, "new_words"));
		fputs("”", to);
	}
}

/* The sheets of a board, and its settings, in one cell each. */
static void put_cells(FILE *to, const struct board *board)
{
	struct run run = { .to = 0 };
	fputs("</td><td>", to);
	for (size_t i = 0; i < board->record.count; i++) {
		fprintf(to, "<p>%zu. owner %" PRIu64 ": ", i + 1, board->record.steps[i].owner);
		put_page_text(to, board->record.steps[i].sheet.name);
		fputs("</p>", to);
	}
	fputs("</td><td class=\"bytes\">", to);
	while (next_set(board, &run)) {
		fputs("<p>", to);
		show_offset(to, run.from);
		fputc(' ', to);
		show_apart(to, board->value + run.from, run.to - run.from);
		put_page_label(to, board, run.from);
		fputs("</p>", to);
	}
	fputs("</td></tr>\n", to);
}

/* A row for each board. */
static void put_boards(FILE *to, const struct history *history)
{
	fputs("<section>\n<h2>Boards</h2>\n<table class=\"boards\">\n<thead><tr><th class=\"number\">Board</th><th>Record</th>"
	      "<th>Image</th><th>Base</th><th>Sheets</th><th>Settings</th></tr></thead>\n<tbody>\n", to);
	for (size_t i = 0; i < history->count; i++) {
		const struct board *board = &history->boards[i];
		fprintf(to, "<tr><td class=\"number\">%zu</td><td class=\"file\">", i + 1);
		put_page_text(to, board->name);
		fprintf(to, "</td><td>%s%s%s</td><td>0x%08" PRIX64, board->standing == AS_RECORDED ? "" : "<strong>",
			standing_of(board), board->standing == AS_RECORDED ? "" : "</strong>", last_base(board));
		put_cells(to, board);
	}
	fputs("</tbody>\n</table>\n</section>\n", to);
}

/* What a board has of some settings in a row. */
static void put_value(FILE *to, const struct history *history, size_t board, const struct run *run)
{
	for (size_t at = run->from; at < run->to; at++) {
		uint8_t byte = 0;
		(void)shown_byte(history, board, at, &byte);
		fprintf(to, "%s%02X", at == run->from ? "" : " ", (unsigned)byte);
	}
}

/* A row for something that differs: of a run of settings, or of the base where there is none. */
static void put_row(FILE *to, const struct history *history, size_t first, const struct run *run)
{
	fputs("<tr><td class=\"at\">", to);
	if (run == NULL) {
		fputs("Base", to);
	} else {
		show_offset(to, run->from);
		put_page_label(to, &history->boards[first], run->from);
	}
	fputs("</td><td class=\"bytes\">", to);
	for (size_t i = first; i < history->count; i++) {
		if (!is_same_maker(&history->boards[first], &history->boards[i]))
			continue;
		fprintf(to, "<p>Board %zu: ", i + 1);
		if (run == NULL)
			fprintf(to, "0x%08" PRIX64, last_base(&history->boards[i]));
		else
			put_value(to, history, i, run);
		fputs("</p>", to);
	}
	fputs("</td></tr>\n", to);
}

/* The boards of one maker's image. */
static void put_group(FILE *to, const struct history *history, size_t first)
{
	struct run run = { .to = 0 };
	fprintf(to, "<section>\n<h2>Where boards of the maker's image %.16s… differ</h2>\n<table class=\"apart\">\n<thead><tr>"
		"<th>What</th><th>On each board</th></tr></thead>\n<tbody>\n", history->boards[first].record.maker.digest);
	bool alike = !have_bases_apart(history, first);
	if (!alike)
		put_row(to, history, first, NULL);
	while (next_different(history, first, &run)) {
		put_row(to, history, first, &run);
		alike = false;
	}
	fputs("</tbody>\n</table>\n", to);
	if (alike)
		fputs("<p>Nowhere: base and settings are alike.</p>\n", to);
	fputs("</section>\n", to);
}

/* The whole page. */
static void put_history(FILE *to, const struct history *history, const char *name)
{
	fputs("<!DOCTYPE html>\n<html lang=\"en\">\n<head>\n<meta charset=\"utf-8\">\n"
	      "<meta http-equiv=\"Content-Security-Policy\" content=\"default-src 'none'; style-src 'unsafe-inline'\">\n"
	      "<meta name=\"viewport\" content=\"width=device-width, initial-scale=1\">\n<title>History: ", to);
	put_title_text(to, history->folder);
	fputs("</title>\n<style>\n", to);
	put_style(to, name, NULL);
	fputs("</style>\n</head>\n<body>\n<main>\n<header>\n<p class=\"kind\">Firmware support images · boards by their "
	      "records</p>\n<h1>", to);
	put_page_text(to, history->folder);
	fprintf(to, "</h1>\n<p class=\"made\">Made by pajurenda %s, proved with ", PAJURENDA_VERSION);
	put_page_text(to, kit_name());
	fputs(".</p>\n</header>\n", to);
	if (history->failed != 0)
		fprintf(to, "<p><strong>%zu record%s could not be read.</strong></p>\n", history->failed,
			history->failed == 1 ? "" : "s");
	put_boards(to, history);
	for (size_t i = 0; i < history->count; i++)
		if (is_first_of_maker(history, i))
			put_group(to, history, i);
	fputs("</main>\n</body>\n</html>\n", to);
}

/* The page written whole or not at all; false after a message. */
bool save_history(const struct history *history, const char *name)
{
	char *at = NULL;
	size_t length = 0;
	FILE *to = open_memstream(&at, &length);
	if (to == NULL) {
		fail_no_memory(name);
		return false;
	}
	put_history(to, history, name);
	const bool whole = ferror(to) == 0, closed = fclose(to) == 0;
	const struct bytes page = { .at = (uint8_t *)at, .length = length };
	if (!whole || !closed)
		fail_no_memory(name);
	const bool saved = whole && closed && save(name, &page);
	free(at);
	return saved;
}
