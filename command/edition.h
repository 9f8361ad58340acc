/* Images of edition 1 (header revision 1): read and audited byte for byte, and nothing else. */
#ifndef COMMAND_EDITION_H
#define COMMAND_EDITION_H

#include <stdbool.h>
#include <stdio.h>

#include "command.h"
#include "pajurenda.h"

bool is_older(const uint8_t *reading);
uint32_t read_newer(const struct bytes *image, uint8_t *reading);
void show_older_version(FILE *to, uint64_t revision);
void show_version_of(FILE *to, const uint8_t *reading);
uint64_t header_end(const struct bytes *image, const uint8_t *reading);
extern const char byte_for_byte[];      /* how such a pair is compared */
extern const char older_not_checked[];  /* what an audit without a difference leaves open */

#endif
