/* The Intel HEX text of bytes, made by the library in memory that no text is too long for. */
#include "hex_text.h"

#include <stdlib.h>

#include "pajurenda.h"

/* The text, to be freed; the answer's number, and PAJURENDA_SHORT where there is no memory. */
uint32_t make_hex(const struct bytes *image, uint64_t base, struct bytes *text)
{
	uint8_t answer[PAJURENDA_EXPORT_BYTES] = { 0 };
	*text = (struct bytes){ .at = malloc(PAJURENDA_MOST_HEX) };
	if (text->at == NULL)
		return PAJURENDA_SHORT;
	const uint32_t number = pajurenda_hex_export(image->at, image->length, base, text->at,
						     PAJURENDA_MOST_HEX, answer, sizeof answer);
	text->length = (size_t)pajurenda_field(answer, PAJURENDA_EXPORT_LENGTH);
	return number;
}
