/* The drawing of what compare.c gives to a call: the model's buffers, and who fills them. */
#ifndef PAJURENDA_DRAWING_H
#define PAJURENDA_DRAWING_H

#include <stddef.h>
#include <stdint.h>

#include "images.h"

#define IMAGE_ROOM ((size_t)TWO24 + 65536)
#define OWNERS_ROOM ((size_t)131072)

/* The buffers of a call: image or vendor, sheet or shipped, owner list, places, answer. */
enum part { IMAGE, OTHER, OWNERS, PLACES, ANSWER, PARTS };

/* compare.c: the model's bytes, how many are lent, the plan of the image, and room for an audit's list. */
extern uint8_t *model[PARTS];
extern size_t length[PARTS];
extern struct plan plan;
extern uint32_t *list;

/* Lengths at the edges of refusal 1; an image of any other length is drawn. */
enum edge { EMPTY, BELOW_LEAST, LEAST, BELOW_MOST, MOST, ABOVE_MOST, EDGES };

/* draw_image.c */
extern const uint64_t edge_length[EDGES];
void draw_image(void);
void draw_edge(enum edge edge);
uint64_t drawn_value(uint64_t old, unsigned width);

/* draw_edition.c: #109, the image that was built as one of edition 1. */
void turn_older(void);

/* draw_modules.c: damage to the files after the header file, and to the modules. */
void damage_file(void);
void damage_free(void);
void damage_module(void);
void damage_row(void);
void damage_block(void);

/* Lengths about both ends of refusal 15, one after the other: 0..20, then 65,530..65,540. */
#define SHORT_SHEETS 21
#define LONG_SHEETS 11
#define SHEET_LENGTHS (SHORT_SHEETS + LONG_SHEETS)

/* draw_sheet.c: a sheet for the image; one for no image, the turns below SHEET_LENGTHS of their lengths. */
uint64_t sheet_length(uint64_t turn);
void draw_sheet(void);
void draw_lone_sheet(uint64_t turn);

/* draw_owners.c: the owner list for a drawn sheet; gives who asks. */
uint64_t draw_owners(void);

/* draw_audit.c: the shipped file, and the places. */
void draw_shipped(void);

/* draw_contents.c: room for the list of contents. */
void draw_list(void);

#endif
