/* The words that a move changes, held against the shipped file. */
#ifndef COMMAND_MOVED_H
#define COMMAND_MOVED_H

#include "ranges.h"

bool is_right(const struct check *check, const struct word *word);
uint64_t count_right(const struct check *check);
void put_word_name(FILE *to, const struct check *check, const struct word *word);
void put_moved(FILE *to, const struct check *check);

#endif
