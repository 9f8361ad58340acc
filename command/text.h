/* A text file taken line by line and word by word, and what is wrong with a line. */
#ifndef COMMAND_TEXT_H
#define COMMAND_TEXT_H

#include <stdbool.h>

#include "command.h"

/* A text: what is left of it, and the line at hand, counted from 1, with its length. */
struct text {
	const char *name;
	char *rest, *end;
	size_t line, length;
};

/* A number of so many bits, by its name, and the other words that may stand where it does. */
struct field {
	const char *name;
	unsigned bits;
	const char *other;
};

bool end_text(const char *name, struct bytes *file);
bool load_text(const char *name, struct bytes *file);
struct text text_of(const char *name, const struct bytes *file);
char *next_line(struct text *text);
bool is_clean(const struct text *text, const char *line);
char *next_word(char **rest);
void begin_fault(const struct text *text);
void say_word(const char *name, const char *word);
enum status fail_line(const struct text *text, const char *fault);
enum status fail_word(const struct text *text, const char *name, const char *word,
		      const char *fault);
bool take_field(const struct text *text, const struct field *field, const char *word,
		uint64_t *value);

#endif
