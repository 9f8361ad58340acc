/*
 * What a shipped file must have. The text is like that of a sheet and is taken in the same way: the
 * library says whether it is for the image and whether the image has such settings. What the file
 * has is what the library's `setting` finds in it.
 */
#include "must.h"

#include <inttypes.h>
#include <stdlib.h>
#include <string.h>

#include "files.h"
#include "making.h"
#include "messages.h"
#include "numbers.h"
#include "show.h"

/* How many bytes of a value stand in a line. */
#define MOST_SHOWN ((size_t)16)

/* The library is asked about each: a text that is longer by mistake ends. */
#define MOST_NEEDS ((size_t)4096)

/* ---- a line ---- */

/* 17 of a line: the library finds no such setting in the image. */
static enum status refuse_need(const struct making *m)
{
	begin_line_refusal(PAJURENDA_FIELD, &m->text);
	fputs("offset ", saying());
	show_offset(saying(), m->written->offset);
	fprintf(saying(), " length %zu, the region's size z is ", m->written->length);
	show_offset(saying(), pajurenda_field(m->reading, PAJURENDA_READ_SIZE));
	return end_refusal();
}

/* The name that has just these bytes; NULL where none has. */
static const struct label *name_of_need(const struct making *m)
{
	const struct names *names = names_of(m->naming);
	const struct label *label =
		names == NULL ? NULL : names_at(names, (uint32_t)m->written->offset);
	return label != NULL && label->offset == m->written->offset &&
			       label->length == m->written->length ? label : NULL;
}

/* One need more, with bytes of its own; NULL after a message. */
static struct need *add_need(struct must *must, const struct making *m)
{
	if (must->count == MOST_NEEDS) {
		fail_line(&m->text, "more than 4096 entries");
		return NULL;
	}
	struct need *need = realloc(must->need, (must->count + 1) * sizeof *need);
	uint8_t *bytes = malloc(m->written->length + 1);
	if (need != NULL)
		must->need = need;
	if (need == NULL || bytes == NULL) {
		free(bytes);
		fail_no_memory(m->text.name);
		return NULL;
	}
	memcpy(bytes, m->written->bytes, m->written->length);
	must->need[must->count] = (struct need){ .line = m->text.line, .bytes = bytes,
						 .label = name_of_need(m) };
	return &must->need[must->count++];
}

/* A line with bytes that must be, which the image has as settings. */
static enum status take_need(struct must *must, struct making *m, char *line)
{
	struct change change;
	if (!take_written(&m->text, names_of(m->naming), line, m->written))
		return FAILED;
	if (!find_change(&m->image.bytes, m->written->offset, NULL, m->written->length, &change))
		return refuse_need(m);
	if (check_replaced(m) != FINE)
		return FAILED;
	struct need *need = add_need(must, m);
	if (need == NULL)
		return FAILED;
	need->change = change;
	need->change.new = need->bytes;
	return FINE;
}

/* A line with the base that must be, or that any may. */
static enum status take_base_line(struct must *must, const struct making *m, char *line)
{
	(void)next_word(&line);
	const char *word = next_word(&line);
	if (word == NULL)
		return fail_line(&m->text, "a value is missing after the name");
	must->any_base = strcmp(word, "any") == 0;
	must->has_base = true;
	if (!must->any_base && read_base(word, &must->base) != NUMBER) {
		begin_fault(&m->text);
		say_word("base", word);
		say_base(word, ", or any for whatever base");
		fputc('\n', stderr);
		return FAILED;
	}
	word = next_word(&line);
	return word == NULL ? FINE : fail_word(&m->text, "", word, "is one word too many");
}

/* A line of any kind. */
static enum status take_line(struct must *must, struct making *m, char *line)
{
	if (!is_clean(&m->text, line))
		return FAILED;
	const size_t first = strspn(line, " \t"), length = strcspn(line + first, " \t#");
	if (length == 0)
		return FINE;
	if (length == 4 && strncmp(line + first, "base", 4) == 0)
		return take_base_line(must, m, line);
	const struct part *part = find_part(line);
	return part != NULL ? take_part(m, part, line) : take_need(must, m, line);
}

/* ---- the text ---- */

/* The text says which image it is for, which base must be, and something that must be. */
static enum status want_all(const struct must *must, const struct making *m)
{
	if (want_parts(m, "must show") != FINE)
		return FAILED;
	if (!must->has_base) {
		fputs("pajurenda: ", stderr);
		say_name(must->file.name);
		fputs(": no line says which base the shipped file must be at: write base 0x00512000, or base any "
		      "(see pajurenda must show --help)\n", stderr);
		return FAILED;
	}
	return must->count > 0 || !must->any_base
		       ? FINE : fail_usage("must show", "", must->file.name, ": it requires nothing");
}

/* All lines. */
static enum status take_lines(struct must *must, struct making *m)
{
	char *line;
	while ((line = next_line(&m->text)) != NULL)
		if (take_line(must, m, line) != FINE)
			return FAILED;
	return want_all(must, m);
}

/* What must be, by the file of this name, for an image that reads; false after a message. The names and the
   image's bytes must stay while it is used. True where there is no name. */
bool load_must(const char *name, const struct named *image, const uint8_t *reading,
	       const struct naming *naming, struct must *must)
{
	struct making m = { .image = *image, .naming = naming };
	struct bytes text = { .at = NULL };
	*must = (struct must){ .file = { .name = name } };
	if (name == NULL)
		return true;
	if (!load(name, &must->file.bytes))
		return false;
	memcpy(m.reading, reading, sizeof m.reading);
	must->makers_base = pajurenda_field(reading, PAJURENDA_READ_BASE);
	enum status status = FAILED;
	if (!copy_bytes(&must->file.bytes, &text))
		fail_no_memory(name);
	else if (end_text(name, &text) && begin_making(&m, name, &text))
		status = take_lines(must, &m);
	end_making(&m);
	free(text.at);
	return status == FINE;
}

/* All memory back. */
void end_must(struct must *must)
{
	for (size_t i = 0; i < must->count; i++)
		free(must->need[i].bytes);
	free(must->need);
	free(must->file.bytes.at);
	*must = (struct must){ .file = { .name = NULL } };
}

/* ---- held or not ---- */

/* What a file has of a need, by the library's own reading of that file; NULL where it has no such setting at that
   position. */
static const uint8_t *find_in(const struct bytes *shipped, const struct change *wanted)
{
	struct change there;
	return find_change(shipped, wanted->offset, NULL, wanted->length, &there) &&
			       there.place == wanted->place ? there.old : NULL;
}

/* Every need held against a file at a base. */
void hold_must(struct must *must, const struct bytes *shipped, uint64_t base)
{
	must->is_base = base;
	for (size_t i = 0; i < must->count; i++) {
		struct need *need = &must->need[i];
		need->is = find_in(shipped, &need->change);
		need->held = need->is != NULL &&
			     memcmp(need->is, need->bytes, need->change.length) == 0;
	}
}

bool is_base_held(const struct must *must)
{
	return must->any_base || must->base == must->is_base;
}

/* How many of the bytes that must be are there, line by line. */
uint64_t count_held(const struct must *must)
{
	uint64_t held = 0;
	for (size_t i = 0; i < must->count; i++)
		held += must->need[i].held;
	return held;
}

/* All of it; also where nothing is asked for. */
bool is_held(const struct must *must)
{
	return must->file.name == NULL || (is_base_held(must) && count_held(must) == must->count);
}

/* ---- shown ---- */

/* A value by name, or as bytes with the number that they are. */
void put_need_value(FILE *to, const struct need *need, const uint8_t *bytes)
{
	const size_t length = need->change.length;
	if (bytes == NULL) {
		fputs("not to be read", to);
		return;
	}
	if (need->label != NULL && length <= MOST_SHOWN) {
		put_label_value(to, need->label, bytes);
		return;
	}
	show_apart(to, bytes, length < MOST_SHOWN ? length : MOST_SHOWN);
	fputs(length > MOST_SHOWN ? " .." : "", to);
	put_number_of(to, " = ", bytes, length);
}

/* The base, and a line for each need: what must be, what is, the maker's. */
void show_must(const struct must *must)
{
	if (must->file.name == NULL)
		return;
	if (must->any_base)
		fputs("must base any", stdout);
	else
		printf("must base 0x%08" PRIX64, must->base);
	printf(", is 0x%08" PRIX64 ", maker's 0x%08" PRIX64 ": %s\n", must->is_base, must->makers_base,
	       is_base_held(must) ? "held" : "not held");
	for (size_t i = 0; i < must->count && ferror(stdout) == 0; i++) {
		const struct need *need = &must->need[i];
		printf("must 0x%04" PRIX64 " at %" PRIu64 " ", need->change.offset, need->change.place);
		if (need->label != NULL) {
			names_put_label(stdout, need->label);
			putchar(' ');
		}
		put_need_value(stdout, need, need->bytes);
		fputs(", is ", stdout);
		put_need_value(stdout, need, need->is);
		fputs(", maker's ", stdout);
		put_need_value(stdout, need, need->change.old);
		printf(": %s\n", need->held ? "held" : "not held");
	}
}
