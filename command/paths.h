/* Names of files as one folder sees them from another. */
#ifndef COMMAND_PATHS_H
#define COMMAND_PATHS_H

#include <stdbool.h>

char *path_from(const char *beside, const char *name);
char *path_at(const char *beside, const char *name);
char *with_ending(const char *name, const char *ending);
const char *last_name(const char *name);
bool is_utf8(const char *name);

#endif
