/* Lists and sheets tried on a copy of an image, to find what a refusal is about. */
#ifndef COMMAND_TRIAL_H
#define COMMAND_TRIAL_H

#include <stdbool.h>

#include "pajurenda.h"
#include "released.h"

/* The copy, on which the library is asked at the image's own base: what was set there before has no
   say in what it refuses. */
struct trial {
	struct bytes copy;
	uint8_t reading[PAJURENDA_READ_BYTES];
};

bool begin_trial(const struct named *image, struct trial *trial);
uint32_t try_list(struct trial *trial, const struct bytes *list, uint64_t owner);
enum status refuse_list(const struct asking *asking);
enum status refuse_foreign(const struct asking *asking);

#endif
