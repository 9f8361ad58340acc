/* One check, from its words to all that is told and written of it. */
#ifndef COMMAND_CHECKING_H
#define COMMAND_CHECKING_H

#include "checked.h"

const char *command_of(const struct check *check);
const char *find_clash(unsigned options);
enum status run_one(bool verify, char **word, const struct options *options);
bool is_apart(const struct check *check, const char *out);

#endif
