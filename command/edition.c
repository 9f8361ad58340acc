/*
 * Images of edition 1. The library reads and audits them; no rule was asked of their c and z, so nothing
 * here or elsewhere looks at either.
 */
#include "edition.h"

#include "letters.h"
#include "show.h"

const char byte_for_byte[] = "byte for byte; settings can't be told apart";

const char older_not_checked[] = "whether the maker's settings are the wanted ones; an edition 1 image doesn't tell "
				 "them apart, so neither sheets nor --must say it";

/* An accepted reading is that of an edition 1 image. */
bool is_older(const uint8_t *reading)
{
	return pajurenda_edition(reading) == 1;
}

/* The reading, of PAJURENDA_READ_BYTES, for who needs settings or the words of a move: the image's own refusals,
   then 28. That number too is the library's word: no setting is looked up in such an image. */
uint32_t read_newer(const struct bytes *image, uint8_t *reading)
{
	uint8_t part[PAJURENDA_SETTING_BYTES] = { 0 };
	const uint32_t number = pajurenda_read(image->at, image->length, reading, PAJURENDA_READ_BYTES);
	if (number != PAJURENDA_ACCEPTED || !is_older(reading))
		return number;
	return pajurenda_setting(image->at, image->length, 0, 0, part, sizeof part);
}

/* The version that a revision of edition 1 stands for: a major and a minor number of a byte each. */
void show_older_version(FILE *to, uint64_t revision)
{
	fprintf(to, "%u.%u", (unsigned)(revision >> 8 & 0xFF), (unsigned)(revision & 0xFF));
}

/* The version that a reading's revision stands for. */
void show_version_of(FILE *to, const uint8_t *reading)
{
	const uint64_t revision = pajurenda_field(reading, PAJURENDA_READ_REVISION);
	if (is_older(reading))
		show_older_version(to, revision);
	else
		show_image_version(to, revision, pajurenda_field(reading, PAJURENDA_READ_EXTENDED));
}

/* The position after the FSP header of an edition 1 image, after the tables of any other. */
uint64_t header_end(const struct bytes *image, const uint8_t *reading)
{
	const uint64_t header = pajurenda_field(reading, PAJURENDA_READ_HEADER);
	if (is_older(reading))
		return header + number_at(image, header + 4, 4);
	return pajurenda_field(reading, PAJURENDA_READ_END);
}
