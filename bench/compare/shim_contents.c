/* The list of contents over the second reader, beside shim.c. */
#include "fields.h"

#include "contents.h"

uint32_t pajurenda_contents(const uint8_t *image, size_t image_length,
			    uint8_t *list, size_t list_length,
			    uint8_t *answer, size_t answer_length)
{
	if (answer_length < PAJURENDA_CONTENTS_BYTES)
		return PAJURENDA_SHORT;
	return model_contents(image, image_length, list, list_length, answer);
}
