/*
 * The components that lie in a file of several, as makers ship them. At each place where a volume's mark stands the library
 * is asked for an image of the length that its header says: what it reads is a component, and nothing else is. No rule of
 * ours finds one.
 */
#include "components.h"

#include <inttypes.h>
#include <stdio.h>

#include "edition.h"
#include "letters.h"
#include "refusals.h"

/* Volumes start at a multiple of this, with their mark here. */
#define UNIT 8
#define MARK_AT 40

/* More places than this aren't asked for: no maker's file has as many volumes. */
#define MOST_ASKED 4096

/* From the file's start. */
void start_looking(struct looking *looking, const struct bytes *file)
{
	*looking = (struct looking){ .file = file };
}

/* The library reads an image at this place, of the length that stands where its header has it; one of edition 1 is no
   component. */
static bool is_component(const struct bytes *file, uint64_t at, struct component *component)
{
	const struct bytes rest = { .at = file->at + at, .length = file->length - at };
	const struct letters w = letters_of(&rest);
	const uint64_t length = number_at(&rest, w.H + 24, 4);
	if (length == 0 || length > rest.length)
		return false;
	*component = (struct component){ .place = at, .length = length };
	return pajurenda_read(rest.at, (size_t)length, component->reading, sizeof component->reading) ==
		       PAJURENDA_ACCEPTED && !is_older(component->reading);
}

/* The next component; false where there is none any more. */
bool next_component(struct looking *looking, struct component *component)
{
	const struct bytes *file = looking->file;
	for (uint64_t at = looking->next; has_bytes(file, at, MARK_AT + 4); at += UNIT) {
		if (!stands(file, at + MARK_AT, "_FVH"))
			continue;
		if (looking->asked++ == MOST_ASKED)
			break;
		if (!is_component(file, at, component))
			continue;
		looking->next = at + (component->length + UNIT - 1) / UNIT * UNIT;
		return true;
	}
	looking->next = file->length;
	return false;
}

/* T, M, S or I. */
char letter_of(const struct component *component)
{
	const uint64_t number = pajurenda_field(component->reading, PAJURENDA_READ_COMPONENT);
	return number >= 1 && number <= 4 ? " TMSI"[number] : '?';
}

/* Every byte of a stretch is this one. */
bool is_all(const struct bytes *file, uint64_t at, uint64_t length, uint8_t byte)
{
	for (uint64_t i = 0; i < length; i++)
		if (file->at[at + i] != byte)
			return false;
	return true;
}

/* In a refusal's line: which components lie where, and what to do with them; nothing where there is none. */
void say_components(const struct bytes *file)
{
	struct looking looking;
	struct component component;
	unsigned count = 0;
	start_looking(&looking, file);
	while (next_component(&looking, &component))
		fprintf(saying(), "%s%c at %" PRIu64 " length %" PRIu64, count++ == 0 ? "; components lie in it: " : ", ",
			letter_of(&component), component.place, component.length);
	if (count != 0)
		fputs("; pajurenda split FILE FOLDER writes each as a file of its own", saying());
}
