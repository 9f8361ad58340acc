/* The list of contents as the header has it, by the second reader. */
#ifndef PAJURENDA_CONTENTS_H
#define PAJURENDA_CONTENTS_H

#include <stddef.h>
#include <stdint.h>

/* As pajurenda_contents, for an answer that has room: the counts, then the list where all of it has room. */
uint32_t model_contents(const uint8_t *image, size_t image_length, uint8_t *list, size_t list_length,
			uint8_t *answer);

#endif
