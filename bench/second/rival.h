/*
 * The rival: what the second reader answers to a reading, a move and an audit, written for speed.
 * Allocates; ends the program where there is no memory. For machines with the lowest byte first.
 */
#ifndef BENCH_SECOND_RIVAL_H
#define BENCH_SECOND_RIVAL_H

#include <stdint.h>

#include "second.h"

/* It gathers the words of all modules in a list and sorts it once. */

/* As second_read. */
struct second_reading rival_read(const uint8_t *image, uint64_t length);

/* As second_release with an empty sheet of the image's own identity, an empty owner list and owner 1. */
struct second_released rival_move(uint8_t *image, uint64_t length, uint64_t new_base);

/* As second_audit: the stretches between the words are compared by the C library, each word by itself. */
struct second_audited rival_audit(const uint8_t *vendor, uint64_t vendor_length,
				  const uint8_t *shipped, uint64_t shipped_length,
				  uint32_t *places, uint64_t places_count);

/* The same with shortcuts: words that rise as they come aren't sorted, and an audit compares no word by itself but moves the words of each
   chunk in a copy of it. */
struct second_reading fastest_read(const uint8_t *image, uint64_t length);
struct second_released fastest_move(uint8_t *image, uint64_t length, uint64_t new_base);
struct second_audited fastest_audit(const uint8_t *vendor, uint64_t vendor_length,
				    const uint8_t *shipped, uint64_t shipped_length,
				    uint32_t *places, uint64_t places_count);

#endif
