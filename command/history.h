/* Many boards: the records of a folder, what each board has, and where boards of one maker's image differ. */
#ifndef COMMAND_HISTORY_H
#define COMMAND_HISTORY_H

#include "record.h"

/* Whether the image that a record made is there, and is it. */
enum standing { AS_RECORDED, NOT_AS_RECORDED, NOT_THERE };

/* A record with what its steps set in the end: by offset up to an end the byte, whether a step set it, the maker's byte, and the
   name that has it, a piece of the record. */
struct board {
	char *name;
	struct record record;
	enum standing standing;
	size_t end;
	uint8_t *value, *makers;
	bool *set;
	const struct piece **label;
};

struct history {
	const char *folder;
	struct board *boards;
	size_t count;
	char **unread; /* the names of the records that can't be read */
	size_t failed; /* how many these are */
};

/* Offsets one after the other that belong together, up to but not with the last. */
struct run {
	size_t from, to;
};

bool load_history(const char *folder, struct history *history);
void free_history(struct history *history);
bool next_set(const struct board *board, struct run *run);
bool is_same_maker(const struct board *one, const struct board *other);
bool is_first_of_maker(const struct history *history, size_t board);
bool next_different(const struct history *history, size_t first, struct run *run);
bool have_bases_apart(const struct history *history, size_t first);
void put_label(FILE *to, const struct board *board, size_t offset);
bool shown_byte(const struct history *history, size_t board, size_t offset, uint8_t *byte);
const char *standing_of(const struct board *board);
uint64_t last_base(const struct board *board);
void write_history(const struct history *history, size_t others);
bool save_history(const struct history *history, const char *name);

#endif
