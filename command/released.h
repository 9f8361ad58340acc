/* A release asked of the library, and its refusals. */
#ifndef COMMAND_RELEASED_H
#define COMMAND_RELEASED_H

#include "owners.h"
#include "refusals.h"

/* A release that is asked for; no owners where whose the settings are has no say. */
struct asking {
	const struct named *image, *sheet;
	uint64_t base;
	const struct owners *owners;
	uint64_t owner;
};

uint64_t base_of(const struct bytes *image);
uint32_t release_by(struct bytes *image, const struct asking *asking, uint8_t *answer);
uint32_t release_by_one(struct bytes *image, const struct bytes *sheet, uint64_t base,
			uint8_t *answer);
enum status refuse_release(uint32_t number, const struct asking *asking);

#endif
