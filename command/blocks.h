/* One hand-off block shown, from the library's answer on it. */
#ifndef COMMAND_BLOCKS_H
#define COMMAND_BLOCKS_H

#include "command.h"

void show_line(const struct bytes *dump, const uint8_t *block);
void show_object(const struct bytes *dump, const uint8_t *block, const char *before);

#endif
