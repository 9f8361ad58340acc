/* The builder of images that compare.c and speed.c share: a plan, its layout, its bytes. */
#ifndef PAJURENDA_IMAGES_H
#define PAJURENDA_IMAGES_H

#include <stdint.h>

#include "inside.h"
#include "../make/cover.h"
#include "../make/drawn.h"

#define MOST_ENTRIES 1024

/* The volume ends with the image, with the header file, or anywhere between. */
enum ends { ENDS_WITH_IMAGE, ENDS_WITH_HEADER_FILE, ENDS_ANYWHERE };

#define TWO24 UINT64_C(0x1000000)
#define TWO32 UINT64_C(0x100000000)

/* What an image is built from, in the letters of document 01; guard is the length of FSPE, or 0. #107: where the volume ends, the files after
   the header file, the modules of one of them. */
struct plan {
	uint64_t length, V, h, x, e, L, guard, more_section, more_file;
	uint64_t header_revision, component, low12, identity, revision, extended, base;
	uint64_t n, before, gap, c, z;
	enum ends ends;
	uint64_t f, s, S, H, g, p, E, end;
	uint64_t place[MOST_ENTRIES];
	uint32_t entry[MOST_ENTRIES];
	struct cover cover;
	struct inside inside;
};

/* The sequence of numbers from a start, which may be any. */
void numbers_from(uint64_t start);

/* Bytes of the sequence; long parts repeat a block. */
void fill_bytes(uint8_t *at, uint64_t length);

/* A plan of fixed small parts, or of parts drawn from the sequence. */
void plan_plain(struct plan *plan);
void plan_drawn(struct plan *plan);

/* The layout for at least a length, with the words spread up to the end. */
void lay_out(struct plan *plan, uint64_t at_least);

/* The extended number of the planned image: 0 below header revision 6. */
uint64_t extended_number(const struct plan *plan);

/* A sheet without entries, of 16 bytes, for an image of an identity, revision and extended number. */
#define EMPTY_SHEET 16
void empty_sheet(uint8_t *sheet, uint64_t identity, uint64_t revision, uint64_t extended);

/* A legal base for an image of some length. */
uint64_t drawn_base(uint64_t length);

/* The planned parts written over the bytes that are there; then the two sums. */
void build(const struct plan *plan, uint8_t *image);
void mend(const struct plan *plan, uint8_t *image, uint64_t length);

#endif
