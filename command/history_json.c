/* history --json: every board by its record, and where boards of one maker's image differ, as one document. */
#include <inttypes.h>

#include "history.h"
#include "json.h"
#include "show.h"
#include "signs.h"

/* A member of an object in a line, a text or null. */
static void put_member(const char *name, const char *text)
{
	printf(", \"%s\": ", name);
	if (text == NULL)
		fputs("null", stdout);
	else
		put_json_text(stdout, text);
}

/* A file as the record has it. */
static void put_filed(const char *name, const struct filed *filed)
{
	printf(", \"%s\": {\"file\": ", name);
	put_json_text(stdout, filed->name);
	printf(", \"length\": %" PRIu64 ", \"sha256\": \"%s\"}", filed->length, filed->digest);
}

/* Settings in a row, and the name that the record has for them. */
static void put_run(const struct board *board, const struct run *run)
{
	const struct piece *label = run->from < board->end ? board->label[run->from] : NULL;
	printf("{\"offset\": %zu, \"length\": %zu", run->from, run->to - run->from);
	put_member("name", label == NULL ? NULL : text_in(label, "name"));
}

/* ---- a board ---- */

/* Its releases. */
static void write_steps(const struct record *record)
{
	fputs(",\n     \"steps\": [", stdout);
	for (size_t i = 0; i < record->count; i++) {
		const struct step *step = &record->steps[i];
		printf("%s\n       {\"step\": %zu", i == 0 ? "" : ",", i + 1);
		put_member("time", step->time);
		printf(", \"owner\": %" PRIu64 ", \"base\": \"0x%08" PRIX64 "\"", step->owner, step->after);
		put_filed("sheet", &step->sheet);
		putchar('}');
	}
	fputs("\n     ]", stdout);
}

/* What they have set in the end, with the words of a choice where the record has them. */
static void write_settings(const struct board *board)
{
	struct run run = { .to = 0 };
	const char *before = "";
	fputs(",\n     \"settings\": [", stdout);
	while (next_set(board, &run)) {
		const struct piece *label = board->label[run.from];
		printf("%s\n       ", before);
		put_run(board, &run);
		fputs(", \"bytes\": ", stdout);
		json_bytes(board->value + run.from, run.to - run.from);
		put_member("bytes_words", label == NULL ? NULL : text_in(label, "new_words"));
		putchar('}');
		before = ",";
	}
	printf("%s]", *before == 0 ? "" : "\n     ");
}

/* All of one board. */
static void write_board(const struct board *board, size_t number)
{
	const struct record *record = &board->record;
	printf("%s\n    {\"board\": %zu", number == 1 ? "" : ",", number);
	put_member("record", board->name);
	put_filed("image", &record->steps[record->count - 1].result);
	put_member("standing", standing_of(board));
	put_filed("maker", &record->maker);
	printf(", \"makers_base\": \"0x%08" PRIX64 "\", \"base\": \"0x%08" PRIX64 "\"", record->base, last_base(board));
	write_steps(record);
	write_settings(board);
	putchar('}');
}

/* ---- the boards of one maker's image ---- */

/* What a board has of some settings in a row; its base where there are none. */
static void write_value(const struct history *history, size_t board, const struct run *run)
{
	if (run == NULL) {
		printf("\"base\": \"0x%08" PRIX64 "\"}", last_base(&history->boards[board]));
		return;
	}
	fputs("\"bytes\": \"", stdout);
	for (size_t at = run->from; at < run->to; at++) {
		uint8_t byte = 0;
		(void)shown_byte(history, board, at, &byte);
		show_hex(stdout, &byte, 1);
	}
	fputs("\"}", stdout);
}

/* What each of them has. */
static void write_each(const struct history *history, size_t first, const struct run *run)
{
	putchar('[');
	for (size_t i = first; i < history->count; i++) {
		if (!is_same_maker(&history->boards[first], &history->boards[i]))
			continue;
		printf("%s{\"board\": %zu, ", i == first ? "" : ", ", i + 1);
		write_value(history, i, run);
	}
	putchar(']');
}

/* Where they differ in their settings. */
static void write_different(const struct history *history, size_t first)
{
	struct run run = { .to = 0 };
	const char *before = "";
	fputs(",\n     \"differ\": [", stdout);
	while (next_different(history, first, &run)) {
		printf("%s\n       ", before);
		put_run(&history->boards[first], &run);
		fputs(", \"each\": ", stdout);
		write_each(history, first, &run);
		putchar('}');
		before = ",";
	}
	printf("%s]", *before == 0 ? "" : "\n     ");
}

/* Every maker's image with its boards and their bases, and where they differ. */
static void write_makers(const struct history *history)
{
	const char *before = "";
	fputs(",\n  \"makers\": [", stdout);
	for (size_t i = 0; i < history->count; i++) {
		if (!is_first_of_maker(history, i))
			continue;
		printf("%s\n    {\"sha256\": \"%s\", \"bases\": ", before, history->boards[i].record.maker.digest);
		write_each(history, i, NULL);
		write_different(history, i);
		putchar('}');
		before = ",";
	}
	printf("%s]", *before == 0 ? "" : "\n  ");
}

/* The records that can't be read. */
static void write_unread(const struct history *history)
{
	fputs(",\n  \"not_read\": [", stdout);
	for (size_t i = 0; i < history->failed; i++) {
		fputs(i == 0 ? "" : ", ", stdout);
		put_json_text(stdout, history->unread[i]);
	}
	putchar(']');
}

/* The whole document. */
void write_history(const struct history *history, size_t others)
{
	begin_json("history");
	json_text("folder", history->folder);
	fputs(",\n  \"boards\": [", stdout);
	for (size_t i = 0; i < history->count; i++)
		write_board(&history->boards[i], i + 1);
	fputs(history->count == 0 ? "]" : "\n  ]", stdout);
	write_makers(history);
	write_unread(history);
	json_number("count", history->count);
	json_number("not_as_recorded", others);
	json_number("failed", history->failed);
	end_json();
}
