/* What the readers of names share: the table that is being made, and stretches of the file. */
#ifndef COMMAND_NAMES_PARTS_H
#define COMMAND_NAMES_PARTS_H

#include "names.h"

/* A stretch of the file, or of nothing. */
struct span {
	const char *at;
	size_t length;
};

/* Whose region the statements at hand are about. */
enum block { NO_BLOCK, OURS, ANOTHERS };

/* A name in the making; its choices follow each other in the store. */
struct made {
	struct label label;
	size_t first;
};

/* What is kept as long as the names are. Texts never need more room than the file has; the defaults
   lie as they would in the region. */
struct store {
	char *texts;
	size_t filled, room;
	uint8_t *given;
	struct choice *choice;
	size_t choices, choice_room;
	struct made *made;
	size_t count, made_room;
	struct label *label;
};

/* A file that is being read: what is left of it, and where the block at hand has come to, in bits. */
struct reading {
	const struct names_for *image;
	const char *at, *end;
	size_t line;
	enum block block;
	uint64_t place;
	bool met, refused;
	char marks[100];
	struct store store;
	size_t passed, passed_line;
	struct names_problem *why;
};

/* No name was made of a statement. */
#define NO_LABEL ((size_t)-1)

/* Longer lists of choices than any setting has are cut, so that no search in one is long. */
#define MOST_CHOICES ((size_t)1024)

void read_bsf(struct reading *r);
void read_yaml(struct reading *r);
void read_text(struct reading *r);

/* names_store.c */
void refuse(struct reading *r, enum names_fault fault, size_t line, const char *format, ...)
	__attribute__((format(printf, 4, 5)));
void pass_over(struct reading *r, size_t line);
bool make_room(struct reading *r, void **at, size_t count, size_t *room, size_t size);
const char *keep_text(struct reading *r, struct span text);
void begin_block(struct reading *r, struct span mark, size_t line);
void go_on(struct reading *r, uint64_t amount, unsigned unit);
size_t add_label(struct reading *r, struct span name, uint64_t length, unsigned unit, size_t line);
bool add_choice(struct reading *r, uint64_t value, struct span words);

/* names_values.c */
bool span_is(struct span span, const char *word);
struct span trim(struct span span);
struct span unquote(struct span span);
struct span cut_at(struct span *rest, const char *mark);
bool span_number(struct span digits, uint64_t *value);
void give_value(struct reading *r, size_t index, struct span value, size_t line);

/* names_find.c */
uint64_t names_as_number(const struct label *label, const uint8_t *bytes);

/* A word of the file for a sentence, in so many signs at most. */
struct shown {
	char text[44];
};

struct shown show_span(struct span span);

#endif
