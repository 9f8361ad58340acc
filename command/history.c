/* history FOLDER: which base, settings and sheets each board has by its record, and where boards of one maker's image differ. */
#include "history.h"

#include <inttypes.h>
#include <stdlib.h>
#include <string.h>

#include "json.h"
#include "messages.h"
#include "show.h"

/* ---- what both forms go by ---- */

/* The base of the last step. */
uint64_t last_base(const struct board *board)
{
	return board->record.steps[board->record.count - 1].after;
}

/* Whether the image is there, in words. */
const char *standing_of(const struct board *board)
{
	static const char *const words[] = { [AS_RECORDED] = "as recorded", [NOT_AS_RECORDED] = "not as recorded",
					     [NOT_THERE] = "not there" };
	return words[board->standing];
}

/* Both go by one maker's image. */
bool is_same_maker(const struct board *one, const struct board *other)
{
	return strcmp(one->record.maker.digest, other->record.maker.digest) == 0;
}

/* No board before it has its maker's image. */
bool is_first_of_maker(const struct history *history, size_t board)
{
	for (size_t i = 0; i < board; i++)
		if (is_same_maker(&history->boards[i], &history->boards[board]))
			return false;
	return true;
}

/* The next settings in a row that a board's steps set, of one name, from the run's end on; false where there are none. */
bool next_set(const struct board *board, struct run *run)
{
	size_t at = run->to;
	while (at < board->end && !board->set[at])
		at++;
	run->from = at;
	while (at < board->end && board->set[at] && board->label[at] == board->label[run->from])
		at++;
	run->to = at;
	return run->from < run->to;
}

/* The byte of a board at an offset: what its steps set, or the maker's as any board of that image knows it; false where none does. */
bool shown_byte(const struct history *history, size_t board, size_t offset, uint8_t *byte)
{
	const struct board *own = &history->boards[board];
	if (offset < own->end && own->set[offset]) {
		*byte = own->value[offset];
		return true;
	}
	for (size_t i = 0; i < history->count; i++) {
		const struct board *other = &history->boards[i];
		if (is_same_maker(own, other) && offset < other->end && other->set[offset]) {
			*byte = other->makers[offset];
			return true;
		}
	}
	return false;
}

/* Boards of the first one's maker's image have other bytes at an offset. */
static bool differs_at(const struct history *history, size_t first, size_t offset)
{
	uint8_t byte = 0, own = 0;
	if (!shown_byte(history, first, offset, &own))
		return false;
	for (size_t i = first + 1; i < history->count; i++)
		if (is_same_maker(&history->boards[first], &history->boards[i]) &&
		    shown_byte(history, i, offset, &byte) && byte != own)
			return true;
	return false;
}

/* The next settings in a row that differ between boards of the first one's maker's image. */
bool next_different(const struct history *history, size_t first, struct run *run)
{
	size_t at = run->to, end = 0;
	for (size_t i = first; i < history->count; i++)
		if (is_same_maker(&history->boards[first], &history->boards[i]) && history->boards[i].end > end)
			end = history->boards[i].end;
	while (at < end && !differs_at(history, first, at))
		at++;
	run->from = at;
	while (at < end && differs_at(history, first, at))
		at++;
	run->to = at;
	return run->from < run->to;
}

/* Their bases differ. */
bool have_bases_apart(const struct history *history, size_t first)
{
	for (size_t i = first + 1; i < history->count; i++)
		if (is_same_maker(&history->boards[first], &history->boards[i]) &&
		    last_base(&history->boards[i]) != last_base(&history->boards[first]))
			return true;
	return false;
}

/* The name of a setting and the words of its value, where the record has them. */
void put_label(FILE *to, const struct board *board, size_t offset)
{
	const struct piece *label = offset < board->end ? board->label[offset] : NULL;
	if (label == NULL)
		return;
	fputc(' ', to);
	put_name(to, text_in(label, "name"));
	if (text_in(label, "new_words") == NULL)
		return;
	fputc(' ', to);
	put_name(to, text_in(label, "new_words"));
}

/* ---- in lines ---- */

/* One board: its image, its base, its sheets, its settings. */
static void show_board(const struct board *board, size_t number)
{
	const struct record *record = &board->record;
	struct run run = { .to = 0 };
	printf("board %zu ", number);
	put_name(stdout, board->name);
	fputs("\n  image ", stdout);
	put_name(stdout, record->steps[record->count - 1].result.name);
	printf(", %s\n  maker's image %s ", standing_of(board), record->maker.digest);
	put_name(stdout, record->maker.name);
	printf("\n  base 0x%08" PRIX64 ", maker's 0x%08" PRIX64 "\n", last_base(board), record->base);
	for (size_t i = 0; i < record->count; i++) {
		printf("  step %zu %s owner %" PRIu64 " base 0x%08" PRIX64 " sheet ", i + 1, record->steps[i].time,
		       record->steps[i].owner, record->steps[i].after);
		put_name(stdout, record->steps[i].sheet.name);
		putchar('\n');
	}
	while (next_set(board, &run)) {
		fputs("  setting ", stdout);
		show_offset(stdout, run.from);
		putchar(' ');
		show_apart(stdout, board->value + run.from, run.to - run.from);
		put_label(stdout, board, run.from);
		putchar('\n');
	}
}

/* What each board of one maker's image has where they differ. */
static void show_values(const struct history *history, size_t first, const struct run *run)
{
	for (size_t i = first; i < history->count; i++) {
		if (!is_same_maker(&history->boards[first], &history->boards[i]))
			continue;
		printf("%s board %zu has", i == first ? "" : ",", i + 1);
		for (size_t at = run->from; at < run->to; at++) {
			uint8_t byte = 0;
			(void)shown_byte(history, i, at, &byte);
			printf(" %02X", (unsigned)byte);
		}
	}
	putchar('\n');
}

/* The boards of one maker's image, and where they differ. */
static void show_group(const struct history *history, size_t first)
{
	struct run run = { .to = 0 };
	bool alike = true;
	printf("maker's image %s boards", history->boards[first].record.maker.digest);
	for (size_t i = first; i < history->count; i++)
		if (is_same_maker(&history->boards[first], &history->boards[i]))
			printf(" %zu", i + 1);
	putchar('\n');
	if (have_bases_apart(history, first)) {
		alike = false;
		fputs("  differ in the base:", stdout);
		for (size_t i = first; i < history->count; i++)
			if (is_same_maker(&history->boards[first], &history->boards[i]))
				printf("%s board %zu at 0x%08" PRIX64, i == first ? "" : ",", i + 1,
				       last_base(&history->boards[i]));
		putchar('\n');
	}
	while (next_different(history, first, &run)) {
		alike = false;
		fputs("  differ at ", stdout);
		show_offset(stdout, run.from);
		put_label(stdout, &history->boards[first], run.from);
		putchar(':');
		show_values(history, first, &run);
	}
	if (alike)
		puts("  alike in base and settings");
}

/* Every board, and every maker's image. */
static void show_lines(const struct history *history, size_t others)
{
	for (size_t i = 0; i < history->count; i++)
		show_board(&history->boards[i], i + 1);
	for (size_t i = 0; i < history->count; i++)
		if (is_first_of_maker(history, i))
			show_group(history, i);
	printf("boards %zu images not as recorded %zu records not to be read %zu\n", history->count, others,
	       history->failed);
}

/* All of it, in lines or as a document; 2 where a record can't be read, 1 where an image isn't as recorded. */
static enum status show_history(const struct history *history)
{
	size_t others = 0;
	for (size_t i = 0; i < history->count; i++)
		others += history->boards[i].standing == NOT_AS_RECORDED;
	if (is_json())
		write_history(history, others);
	else
		show_lines(history, others);
	return history->failed != 0 ? FAILED : others != 0 ? UNEXPLAINED : FINE;
}

/* The page is none of the records; false after a message. */
static bool is_page_apart(const struct history *history, const char *page)
{
	for (size_t i = 0; page != NULL && i < history->count; i++)
		if (is_same_file(history->boards[i].name, page)) {
			fail_usage("history", "the file to write is ", page, " itself, a record, which would be lost");
			return false;
		}
	return true;
}

/* history [--json] [--report FILE] FOLDER */
enum status do_history(char **word, const struct options *options)
{
	struct history history = { .folder = word[0] };
	enum status status = FAILED;
	if (is_free(options->report) && load_history(word[0], &history) && is_page_apart(&history, options->report) &&
	    (options->report == NULL || save_history(&history, options->report)))
		status = show_history(&history);
	free_history(&history);
	return status;
}
