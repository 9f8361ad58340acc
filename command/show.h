/* Bytes shown as text or in hex. */
#ifndef COMMAND_SHOW_H
#define COMMAND_SHOW_H

#include <stdbool.h>
#include <stddef.h>
#include <stdint.h>
#include <stdio.h>

bool is_printable(const uint8_t *bytes, size_t count);
void show_text(FILE *to, const uint8_t *bytes, size_t count);
void show_hex(FILE *to, const uint8_t *bytes, size_t count);
void show_apart(FILE *to, const uint8_t *bytes, size_t count);
void show_offset(FILE *to, uint64_t offset);
void show_identity(FILE *to, const uint8_t *identity);
void show_bound(FILE *to, const uint8_t *identity, uint64_t revision, uint64_t extended,
		const char *before);
void show_image_version(FILE *to, uint64_t revision, uint64_t extended);
void show_guid(FILE *to, const uint8_t *guid);

#endif
