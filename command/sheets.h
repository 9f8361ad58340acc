/* Release sheets laid out, saved and shown; the library judges them. */
#ifndef COMMAND_SHEETS_H
#define COMMAND_SHEETS_H

#include <stdbool.h>

#include "command.h"
#include "naming.h"
#include "pajurenda.h"

/* What a length's 16 bits hold, and room for one entry more than any sheet that the library took:
   the library is asked after each, so a draft never grows further. */
#define MOST_BODY ((size_t)65535)
#define MOST_BODIES (PAJURENDA_MOST_SHEET + MOST_BODY)
#define MOST_ENTRIES ((size_t)257)
#define MOST_DRAFT (PAJURENDA_EMPTY_SHEET + PAJURENDA_ENTRY_BYTES * MOST_ENTRIES + MOST_BODIES)

/* An entry of a draft. */
struct entry {
	uint64_t offset;
	size_t length;
};

/* A sheet that is being made: which image it is for, entries and bodies; and its bytes so far. */
struct draft {
	uint8_t head[PAJURENDA_EMPTY_SHEET];
	struct entry entry[MOST_ENTRIES];
	size_t count;
	uint8_t bodies[MOST_BODIES];
	size_t filled;
	uint8_t sheet[MOST_DRAFT];
};

bool add_entry(struct draft *draft, uint64_t offset);
bool add_byte(struct draft *draft, uint8_t byte);
void put_number(uint8_t *at, size_t width, uint64_t value);
struct bytes lay_out(struct draft *draft);
void show_head(const uint8_t *judged, const char *before);
enum status save_open_sheet(const char *out, const struct bytes *sheet, const struct naming *naming,
			    const struct bytes *image);
enum status save_sheet(const char *out, const struct bytes *sheet, const struct naming *naming,
		       const struct bytes *image);
bool move_read(struct bytes *image, const uint8_t *reading, uint64_t base, uint8_t *answer);
bool move_alone(struct bytes *image, uint64_t base, uint8_t *answer);

#endif
