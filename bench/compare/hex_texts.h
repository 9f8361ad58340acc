/* Texts of Intel HEX records, right and wrong, for the comparison. */
#ifndef PAJURENDA_HEX_TEXTS_H
#define PAJURENDA_HEX_TEXTS_H

#include <stddef.h>
#include <stdint.h>

/* Records with right sums of some bytes at a base, with at most one thing about them drawn to be other than an export has it; the length
   of the text. */
size_t draw_records(uint8_t *text, const uint8_t *bytes, size_t length, uint64_t base);

/* A text with some of its characters drawn anew, taken out, put in or exchanged; the new length. */
size_t damage_text(uint8_t *text, size_t length);

#endif
