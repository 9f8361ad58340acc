/*
 * Owner lists, from a text that a person writes or as the bytes themselves. A file with a 0 among its
 * bytes is not text, and every range that the library takes has one: offsets end below 65,536, owners
 * are 1 and 2. So no list is taken for a text. What is no list at all is judged here, with its line;
 * all else by the library.
 */
#include "owners.h"

#include <stdlib.h>
#include <string.h>

#include "files.h"
#include "letters.h"
#include "messages.h"
#include "pajurenda.h"
#include "text.h"

/* No line with a range is shorter, its line feed counted: three digits and two blanks. */
#define SHORTEST_LINE 6

/* ---- ranges ---- */

/* How many whole ranges a list has. */
size_t count_ranges(const struct bytes *list)
{
	return list->length / PAJURENDA_RANGE_BYTES;
}

/* A range by its index. */
struct owned range_at(const struct bytes *list, size_t index)
{
	const uint64_t at = PAJURENDA_RANGE_BYTES * (uint64_t)index;
	return (struct owned){ .offset = number_at(list, at, 4),
			       .length = number_at(list, at + 4, 2),
			       .owner = number_at(list, at + 6, 2) };
}

/* The first range that has an offset of the region, for showing; the count of all where none has. */
size_t find_range(const struct bytes *list, uint64_t offset)
{
	const size_t count = count_ranges(list);
	size_t i = 0;
	for (; i < count; i++) {
		const struct owned range = range_at(list, i);
		if (offset >= range.offset && offset - range.offset < range.length)
			break;
	}
	return i;
}

/* ---- a text ---- */

/* The numbers of a line, by their names and widths. */
static const struct field fields[] = {
	{ "offset", 32, "" }, { "length", 16, "" }, { "owner", 16, "" },
};

#define FIELDS (sizeof fields / sizeof fields[0])

/* What a line lacks after so many numbers. */
static const char *const missing[] = {
	"", "length and owner are missing: write offset length owner",
	"owner is missing: write offset length owner",
};

/* The three numbers of a line whose first word is this, and no word more; false after a message. */
static bool take_numbers(const struct text *text, const char *word, char *rest, uint64_t *value)
{
	for (size_t i = 0; i < FIELDS; i++) {
		if (word == NULL) {
			fail_line(text, missing[i]);
			return false;
		}
		if (!take_field(text, &fields[i], word, &value[i]))
			return false;
		word = next_word(&rest);
	}
	if (word != NULL)
		fail_word(text, "", word, "is one word too many: write offset length owner");
	return word == NULL;
}

/* A line of any kind; false after a message. */
static bool take_line(struct owners *owners, const struct text *text, char *line)
{
	uint64_t value[FIELDS];
	if (!is_clean(text, line))
		return false;
	const char *word = next_word(&line);
	if (word == NULL)
		return true;
	if (!take_numbers(text, word, line, value))
		return false;
	owners->line[count_ranges(&owners->list)] = text->line;
	pajurenda_put_range(owners->list.at + owners->list.length, (uint32_t)value[0],
			    (uint16_t)value[1], (uint16_t)value[2]);
	owners->list.length += PAJURENDA_RANGE_BYTES;
	return true;
}

/* All lines; false after a message. */
static bool take_lines(struct owners *owners, const struct bytes *file)
{
	struct text text = text_of(owners->name, file);
	char *line;
	while ((line = next_line(&text)) != NULL)
		if (!take_line(owners, &text, line))
			return false;
	return true;
}

/* A loaded text as a list, in memory of its own; false after a message. */
static bool take_text(struct owners *owners, const struct bytes *file)
{
	const size_t most = file->length / SHORTEST_LINE + 1;
	owners->list.at = malloc(most * PAJURENDA_RANGE_BYTES);
	owners->line = malloc(most * sizeof *owners->line);
	if (owners->list.at == NULL || owners->line == NULL) {
		fail_no_memory(owners->name);
		return false;
	}
	return take_lines(owners, file);
}

/* ---- the file ---- */

/* The list's memory. */
void free_owners(struct owners *owners)
{
	free(owners->list.at);
	free(owners->line);
	*owners = (struct owners){ .name = owners->name };
}

/* A list of either form from a file in memory, which it takes over; false after a message. */
bool take_owners(const char *name, struct bytes *file, struct owners *owners)
{
	*owners = (struct owners){ .name = name };
	if (file->length > 0 && memchr(file->at, 0, file->length) != NULL) {
		owners->list = *file;
		return true;
	}
	const bool taken = end_text(name, file) && take_text(owners, file);
	free(file->at);
	if (!taken)
		free_owners(owners);
	return taken;
}

/* The same from a file by its name. */
bool load_owners(const char *name, struct owners *owners)
{
	struct bytes file;
	*owners = (struct owners){ .name = name };
	return load(name, &file) && take_owners(name, &file, owners);
}
