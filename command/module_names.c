/*
 * A module's name, as its maker gave it: the text of the user interface section of its file. It is data, shown
 * beside the file's GUID; no rule looks at it, and a file may have none, or any.
 */
#include "module_names.h"

#include "letters.h"
#include "signs.h"

#define FILE_HEADER 24
#define SECTION_HEADER 4
#define NAME_SECTION 0x15

/* How many signs of a name are shown. */
#define MOST_SIGNS 64

/* Where a file's sections have the name: the place after that section's header, and its bytes; false where none has. */
static bool find_name(const struct bytes *image, uint64_t file, uint64_t *at, uint64_t *length)
{
	const uint64_t end = file + number_at(image, file + 20, 3);
	uint64_t section = file + FILE_HEADER;
	while (section + SECTION_HEADER <= end) {
		const uint64_t size = number_at(image, section, 3);
		if (size < SECTION_HEADER || size > end - section)
			return false;
		*at = section + SECTION_HEADER;
		*length = size - SECTION_HEADER;
		if (number_at(image, section + 3, 1) == NAME_SECTION)
			return true;
		section = (section + size + 3) / 4 * 4;
	}
	return false;
}

/* A sign of 16 bits as UTF-8; a half of a pair becomes the sign for what is none. How many bytes it has. */
static size_t put_wide(char *to, uint64_t wide)
{
	const unsigned sign = wide >= 0xD800 && wide <= 0xDFFF ? NO_SIGN : (unsigned)wide;
	size_t count = 0;
	if (sign < 0x80) {
		to[count++] = (char)sign;
		return count;
	}
	if (sign < 0x800) {
		to[count++] = (char)(0xC0 | sign >> 6);
	} else {
		to[count++] = (char)(0xE0 | sign >> 12);
		to[count++] = (char)(0x80 | (sign >> 6 & 0x3F));
	}
	to[count++] = (char)(0x80 | (sign & 0x3F));
	return count;
}

/* The name of a module's file, up to its end or its 0; false where the file has none, or an empty one. */
bool name_module(const struct contents *contents, uint64_t module, char *name)
{
	uint64_t at = 0, length = 0;
	size_t count = 0;
	if (!find_name(contents->image, contents->modules[module].file, &at, &length))
		return false;
	for (uint64_t k = 0; k < MOST_SIGNS && 2 * k + 2 <= length; k++) {
		const uint64_t wide = number_at(contents->image, at + 2 * k, 2);
		if (wide == 0)
			break;
		count += put_wide(name + count, wide);
	}
	name[count] = 0;
	return count > 0;
}
