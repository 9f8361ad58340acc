/* Whether a file is the maker's image that it is given as: by a digest, by the maker's own text of it, by records. */
#ifndef COMMAND_VOUCHED_H
#define COMMAND_VOUCHED_H

#include <stdbool.h>
#include <stdio.h>

#include "command.h"
#include "refusals.h"

struct check;
struct record;

bool is_digest(const char *command, const struct options *options);
bool vouch_for(const char *command, const struct options *options, const struct named *image, char **by);
bool holds_maker(const struct record *record, const char *digits);
void put_voucher(FILE *to, const char *by);
void note_files(struct check *check);
void say_notes(const struct check *check);

#endif
