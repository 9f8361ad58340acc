/*
 * The second reader: the calls of document 01, written apart from the library. #109: an accepted edition 1 image has
 * component, n and E 0; it is audited byte for byte, and every other call that gets as far as that answers 28.
 */
#ifndef BENCH_SECOND_H
#define BENCH_SECOND_H

#include <stdint.h>

/* Number 0 is an accepted image; a refused one has zero in every field but number and index. */
struct second_reading {
	uint64_t number;
	uint64_t index;
	uint64_t H;
	uint64_t component;
	uint64_t image_identity;
	uint64_t revision;
	uint64_t base;
	uint64_t c;
	uint64_t z;
	uint64_t n;
	uint64_t E;
	uint64_t extended;
};

/* The move is the new base minus the old one; 0 where refused. */
struct second_released {
	uint64_t number;
	uint64_t index;
	int64_t move;
};

/* What a sheet is for and how many entries it has; zeros where refused. */
struct second_judged {
	uint64_t number;
	uint64_t count;
	uint64_t image_identity;
	uint64_t revision;
	uint64_t extended;
};

/* The part of the image that holds a setting: its position in the image; length 0 where refused. */
struct second_part {
	uint64_t number;
	uint64_t position;
	uint64_t length;
};

/* Explained is 0 or 1; refusal 20 keeps base and counts, any other refusal number and index alone. */
struct second_audited {
	uint64_t number;
	uint64_t index;
	uint64_t base;
	uint64_t settings;
	uint64_t strays;
	uint64_t bits;
	uint64_t explained;
};

/*
 * #107: a module of an accepted image. All places are counted from the image's start: the file's
 * header, the section's header, the module's first byte and its image base. The kind is the
 * section's type, 0x10 or 0x12; words counts the relocation words without the image base.
 */
struct second_module {
	uint64_t file, section, kind;
	uint64_t place, size;
	uint64_t base_place, base_width;
	uint64_t words;
};

/* #107: a word that a move changes, 4 or 8 bytes wide. */
struct second_word {
	uint64_t place, width;
};

/* #107, #109: how many modules and words of a move an image has; both 0 where it is refused, with 28 for edition 1. */
struct second_contents {
	uint64_t number, index;
	uint64_t modules, words;
};

struct second_reading second_read(const uint8_t *image, uint64_t length);

/* Whether there are contents to list, and how many. */
struct second_contents second_contents(const uint8_t *image, uint64_t length);

/* The modules in file order: up to `room` of them are written, all are counted; 0 where the image is refused. */
uint64_t second_modules(const uint8_t *image, uint64_t length,
			struct second_module *modules, uint64_t room);

/*
 * All words of a move, written and counted likewise: the base word, the patch words in table order,
 * then for each module its image base and its relocation words in table order.
 */
uint64_t second_words(const uint8_t *image, uint64_t length,
		      struct second_word *words, uint64_t room);

/* An empty sheet of the image's identity only moves, the present base only sets; the owner (1 or 2) sets in its own ranges. */
struct second_released second_release(uint8_t *image, uint64_t length,
				      const uint8_t *sheet, uint64_t sheet_length, uint64_t new_base,
				      const uint8_t *owners, uint64_t owners_length, uint64_t owner);

/* A sheet judged by itself, as every release judges it: 0 or 15. */
struct second_judged second_sheet(const uint8_t *sheet, uint64_t sheet_length);

struct second_part second_setting(const uint8_t *image, uint64_t length,
				  uint64_t offset, uint64_t size);

struct second_audited second_audit(const uint8_t *vendor, uint64_t vendor_length,
				   const uint8_t *shipped, uint64_t shipped_length,
				   uint32_t *places, uint64_t places_count);

#endif
