/* A sheet's entries in a document, and the parts of an image that several documents have. */
#ifndef COMMAND_JSON_SHEET_H
#define COMMAND_JSON_SHEET_H

#include "changes.h"

bool take_change(const struct bytes *image, const struct bytes *sheet, uint64_t index, struct change *change);
enum status json_entries(const struct bytes *image, const struct bytes *sheet, const struct names *names);
void json_region(const uint8_t *reading);
void json_bound(const uint8_t *reading);

#endif
