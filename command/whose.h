/* How the settings of an image are shared out by a list, for showing. */
#ifndef COMMAND_WHOSE_H
#define COMMAND_WHOSE_H

#include "owners.h"

void show_region(const uint8_t *reading, const char *before);
void write_shares(const struct bytes *list, const uint8_t *reading);
void show_shares(const struct bytes *list, const uint8_t *reading, const char *before);

#endif
