/* The names that modules go by: those of their files' user interface sections. */
#ifndef COMMAND_MODULE_NAMES_H
#define COMMAND_MODULE_NAMES_H

#include "contents.h"

/* Room for a name as UTF-8: 64 signs of up to 3 bytes. */
#define MODULE_NAME_BYTES 200

bool name_module(const struct contents *contents, uint64_t module, char *name);

#endif
