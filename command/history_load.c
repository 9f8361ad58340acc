/* The records of a folder, and what the steps of each set in the end. */
#define _XOPEN_SOURCE 700

#include <dirent.h>
#include <errno.h>
#include <stdlib.h>
#include <string.h>

#include "history.h"
#include "clock.h"
#include "messages.h"
#include "numbers.h"
#include "paths.h"

/* ---- one record ---- */

/* An entry of a step: its offset and how many bytes it has; false where it has none. */
static bool take_entry(const struct piece *entry, uint64_t *offset, size_t *length)
{
	const char *new = text_in(entry, "new"), *old = text_in(entry, "old");
	if (new == NULL || old == NULL || strlen(new) != strlen(old) || strlen(new) % 2 != 0 || !all_hex(new) ||
	    !all_hex(old) || !hex_in(entry, "offset", offset))
		return false;
	*length = strlen(new) / 2;
	return *offset <= 65535 && *length <= 65535;
}

/* The end of all entries; false where one can't be taken. */
static bool find_end(struct board *board)
{
	for (size_t i = 0; i < board->record.count; i++)
		for (const struct piece *entry = board->record.steps[i].entries->first; entry != NULL; entry = entry->next) {
			uint64_t offset = 0;
			size_t length = 0;
			if (!take_entry(entry, &offset, &length))
				return false;
			if (offset + length > board->end)
				board->end = (size_t)offset + length;
		}
	return true;
}

/* The names of an entry, each over its bytes. */
static void lay_labels(struct board *board, const struct piece *entry)
{
	const struct piece *names = member_of(entry, "names", A_LIST);
	for (const struct piece *name = names == NULL ? NULL : names->first; name != NULL; name = name->next) {
		const struct piece *length = member_of(name, "length", A_NUMBER);
		uint64_t offset = 0;
		if (length == NULL || text_in(name, "name") == NULL || !hex_in(name, "offset", &offset))
			continue;
		for (uint64_t i = 0; i < length->number && offset + i < board->end; i++)
			board->label[offset + i] = name;
	}
}

/* An entry's bytes over those before it; the first old one is the maker's. */
static void lay_entry(struct board *board, const struct piece *entry)
{
	const char *new = text_in(entry, "new"), *old = text_in(entry, "old");
	uint64_t offset = 0;
	size_t length = 0;
	(void)take_entry(entry, &offset, &length);
	for (size_t i = 0; i < length; i++) {
		if (!board->set[offset + i])
			board->makers[offset + i] = byte_of(old + 2 * i);
		board->set[offset + i] = true;
		board->value[offset + i] = byte_of(new + 2 * i);
	}
	lay_labels(board, entry);
}

/* All steps; false after a message. */
static bool lay_steps(struct board *board)
{
	if (!find_end(board)) {
		fputs("pajurenda: history: ", stderr);
		say_name(board->name);
		fputs(": its entries can't be followed\n", stderr);
		return false;
	}
	board->value = calloc(board->end + 1, 1);
	board->makers = calloc(board->end + 1, 1);
	board->set = calloc(board->end + 1, sizeof *board->set);
	board->label = calloc(board->end + 1, sizeof *board->label);
	if (board->value == NULL || board->makers == NULL || board->set == NULL || board->label == NULL) {
		fail_no_memory(board->name);
		return false;
	}
	for (size_t i = 0; i < board->record.count; i++)
		for (const struct piece *entry = board->record.steps[i].entries->first; entry != NULL; entry = entry->next)
			lay_entry(board, entry);
	return true;
}

/* The image that the last step made is where the record has it, and has its digest. */
static enum standing find_standing(const struct board *board)
{
	const struct filed *result = &board->record.steps[board->record.count - 1].result;
	char *path = path_at(board->name, result->name), digits[DIGEST_DIGITS + 1];
	struct bytes bytes = { .at = NULL };
	enum standing standing = NOT_THERE;
	if (path != NULL && load_quietly(path, &bytes))
		standing = is_filed_input(result, &bytes, digits) ? AS_RECORDED : NOT_AS_RECORDED;
	free(bytes.at);
	free(path);
	return standing;
}

/* A board's memory. */
static void free_board(struct board *board)
{
	free_record(&board->record);
	free(board->value);
	free(board->makers);
	free(board->set);
	free(board->label);
	free(board->name);
}

/* ---- the folder ---- */

/* A file of the folder: a record is kept, what is none is passed. */
static void take_file(struct history *history, struct board *board)
{
	struct bytes bytes;
	if (board->name == NULL || !load_quietly(board->name, &bytes) || !is_record(&bytes)) {
		if (board->name != NULL)
			free(bytes.at);
		free(board->name);
		return;
	}
	const bool taken = take_record(board->name, &bytes, &board->record);
	board->record.text = bytes;
	if (!taken || !lay_steps(board)) {
		history->unread[history->failed++] = board->name;
		board->name = NULL;
		free_board(board);
		return;
	}
	board->standing = find_standing(board);
	history->boards[history->count++] = *board;
}

/* Names that end as those of documents do. */
static int is_document(const struct dirent *entry)
{
	const char *name = entry->d_name, *ending = strrchr(name, '.');
	return ending != NULL && ending != name && strcmp(ending, ".json") == 0;
}

/* Every record of a folder, by name; false after a message. */
bool load_history(const char *folder, struct history *history)
{
	struct dirent **entries = NULL;
	*history = (struct history){ .folder = folder };
	const int count = scandir(folder, &entries, is_document, alphasort);
	if (count < 0) {
		fail_at(folder, errno);
		return false;
	}
	char *within = with_ending(folder, folder[strlen(folder) - (*folder != 0)] == '/' ? "" : "/");
	history->boards = calloc((size_t)count + 1, sizeof *history->boards);
	history->unread = calloc((size_t)count + 1, sizeof *history->unread);
	const bool room = history->boards != NULL && history->unread != NULL;
	for (int i = 0; i < count; i++) {
		struct board board = { .name = within == NULL ? NULL : with_ending(within, entries[i]->d_name) };
		start_clock("history"); /* each record has its time: a folder may have any number of them */
		if (room)
			take_file(history, &board);
		else
			free(board.name);
		free(entries[i]);
	}
	free(entries);
	free(within);
	if (room && history->count + history->failed != 0)
		return true;
	fail_usage("history", "", folder, " has no release record");
	return false;
}

/* All memory back. */
void free_history(struct history *history)
{
	for (size_t i = 0; i < history->count; i++)
		free_board(&history->boards[i]);
	for (size_t i = 0; i < history->failed; i++)
		free(history->unread[i]);
	free(history->boards);
	free(history->unread);
}
