/* The Intel HEX text of bytes, made by the library. */
#ifndef COMMAND_HEX_TEXT_H
#define COMMAND_HEX_TEXT_H

#include "command.h"

uint32_t make_hex(const struct bytes *image, uint64_t base, struct bytes *text);

#endif
