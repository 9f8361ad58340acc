/* The modules and the words of an image, shown: in lines, and in a document. */
#ifndef COMMAND_INSIDE_H
#define COMMAND_INSIDE_H

#include "contents.h"

void show_counts(const struct contents *contents, const uint8_t *reading);
void show_modules(const struct contents *contents);
void show_words(const struct contents *contents, const uint8_t *reading);

void json_module_name(const struct contents *contents, uint64_t module);
void write_counts(const struct contents *contents, const uint8_t *reading);
void write_modules(const struct contents *contents);
void write_words(const struct contents *contents, const uint8_t *reading);

#endif
