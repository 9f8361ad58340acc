/*
 * The table of names while it is made. What it takes never grows with a number that the file has: the
 * texts fit in as much as the file is long, the defaults in as much as the region is.
 */
#include <inttypes.h>
#include <stdarg.h>
#include <stdlib.h>
#include <string.h>

#include "names_parts.h"
#include "signs.h"

/* A place past every region, in bits: what lies there or goes on from there is outside. */
#define FAR ((uint64_t)1 << 40)

/* ---- refusals, and what is passed over ---- */

/* The first refusal is the one that is told. */
void refuse(struct reading *r, enum names_fault fault, size_t line, const char *format, ...)
{
	va_list values;
	if (r->refused)
		return;
	r->refused = true;
	r->why->fault = fault;
	r->why->line = line;
	va_start(values, format);
	vsnprintf(r->why->text, sizeof r->why->text, format, values);
	va_end(values);
}

/* Something of the file that says nothing here. */
void pass_over(struct reading *r, size_t line)
{
	if (r->passed++ == 0 || line < r->passed_line)
		r->passed_line = line;
}

/* ---- room ---- */

/* Room for one more, twice as much where it is full; false where there is no memory. */
bool make_room(struct reading *r, void **at, size_t count, size_t *room, size_t size)
{
	if (count < *room)
		return true;
	const size_t more = *room == 0 ? 64 : *room * 2;
	void *moved = realloc(*at, more * size);
	if (moved == NULL) {
		refuse(r, NAMES_NO_MEMORY, 0, "there is no memory for its names");
		return false;
	}
	*at = moved;
	*room = more;
	return true;
}

/* A sign as it may stand in a line that people read: what would not be seen, or would end a text in
   quotes, becomes another. */
static size_t put_clean(char *to, const char *from, size_t length, uint32_t sign)
{
	if (sign == '"' || (sign < 32 && strchr("\t\r\n", (int)sign) != NULL))
		*to = sign == '"' ? '\'' : ' ';
	else if (sign == NO_SIGN || is_hidden(sign))
		*to = '?';
	else {
		memmove(to, from, length);
		return length;
	}
	return 1;
}

/* Past a line's end and the blanks after it, which are one blank in a text of several lines. */
static const char *pass_line_end(const char *from)
{
	return strchr("\r\n", *from) == NULL ? from : from + strspn(from, " \t\r\n") - 1;
}

/* A text without anything that is not seen, in place; where it is too long its start and two dots. */
static size_t clean(char *text)
{
	const char *from = text;
	size_t filled = 0;
	while (*from != 0) {
		uint32_t sign = 0;
		from = pass_line_end(from);
		const size_t length = take_sign(from, &sign);
		if (filled + length > MOST_NAME - 2 && strlen(from) > 2) {
			memcpy(text + filled, "..", 2);
			filled += 2;
			break;
		}
		filled += put_clean(text + filled, from, length, sign);
		from += length;
	}
	text[filled] = 0;
	return filled;
}

/* A text that is kept; NULL where there is none, or no room. */
const char *keep_text(struct reading *r, struct span text)
{
	struct store *store = &r->store;
	text = trim(text);
	if (text.length == 0 || text.length >= store->room - store->filled)
		return NULL;
	char *kept = store->texts + store->filled;
	memcpy(kept, text.at, text.length);
	kept[text.length] = 0;
	store->filled += clean(kept) + 1;
	return kept;
}

/* ---- blocks ---- */

/* The marks of a file, for the refusal where none fits. */
static void note_mark(struct reading *r, struct span mark)
{
	const size_t filled = strlen(r->marks);
	const struct shown shown = show_span(mark);
	if (filled + strlen(shown.text) + 3 < sizeof r->marks)
		snprintf(r->marks + filled, sizeof r->marks - filled, "%s%s",
			 filled == 0 ? "" : ", ", shown.text);
}

/* A block for the region with that mark; offset 0 is the mark's first byte. */
void begin_block(struct reading *r, struct span mark, size_t line)
{
	const bool ours = mark.length == sizeof r->image->mark &&
			  memcmp(mark.at, r->image->mark, mark.length) == 0;
	note_mark(r, mark);
	r->block = ours ? OURS : ANOTHERS;
	r->place = 0;
	if (ours && r->met)
		refuse(r, NAMES_BROKEN, line, "a second block has the region's mark %s",
		       show_span(mark).text);
	r->met = r->met || ours;
}

/* So many units of so many bits further. */
void go_on(struct reading *r, uint64_t amount, unsigned unit)
{
	const uint64_t most = FAR / unit;
	r->place += amount < most ? amount * unit : FAR;
	if (r->place > FAR)
		r->place = FAR;
}

/* ---- names ---- */

/* A name as it can stand in a line of a text: no number, no other word's mark. */
static bool is_name(struct span name)
{
	static const char others[] = "0123456789.[]";
	for (size_t i = 0; i < name.length; i++) {
		const char c = name.at[i];
		const bool letter = (c >= 'a' && c <= 'z') || (c >= 'A' && c <= 'Z') || c == '_';
		if (!letter && (i == 0 || c == 0 || strchr(others, c) == NULL))
			return false;
	}
	return name.length > 0 && name.length <= MOST_NAME;
}

/* Where a name's own end starts, after a token space's name. */
static const char *brief_of(const char *name)
{
	static const char space[] = "TokenSpaceGuid";
	const char *end = strchr(name, '_');
	const size_t length = sizeof space - 1;
	const bool has = end != NULL && end[1] != 0 && (size_t)(end - name) >= length &&
			 memcmp(end - length, space, length) == 0;
	return has ? end + 1 : name;
}

/* A name at a place that was judged; its index. */
static size_t put_label(struct reading *r, struct span name, const struct label *draft)
{
	struct store *store = &r->store;
	void *at = store->made;
	if (!make_room(r, &at, store->count, &store->made_room, sizeof *store->made))
		return NO_LABEL;
	store->made = at;
	struct made *made = &store->made[store->count];
	*made = (struct made){ .label = *draft, .first = store->choices };
	made->label.name = keep_text(r, name);
	if (made->label.name == NULL) {
		refuse(r, NAMES_NO_MEMORY, 0, "there is no memory for its names");
		return NO_LABEL;
	}
	made->label.brief = brief_of(made->label.name);
	return store->count++;
}

/*
 * A name at the place that the block has come to. What isn't whole bytes can't be set or shown as
 * bytes, and what has no plain name can't be written in a text: both take their place and are passed
 * over.
 */
size_t add_label(struct reading *r, struct span name, uint64_t length, unsigned unit, size_t line)
{
	const uint64_t start = r->place;
	go_on(r, length, unit);
	if (r->block != OURS || r->refused)
		return NO_LABEL;
	if (r->place > (uint64_t)8 * r->image->size) {
		refuse(r, NAMES_OUTSIDE, line, "%s lies outside the region, which ends at 0x%" PRIX32
		       ": these names are of another image", show_span(name).text, r->image->size);
		return NO_LABEL;
	}
	if (start % 8 != 0 && unit == 8)
		refuse(r, NAMES_BROKEN, line, "%s does not start at a whole byte",
		       show_span(name).text);
	if (start % 8 != 0 || r->place % 8 != 0 || r->place == start || !is_name(name)) {
		pass_over(r, line);
		return NO_LABEL;
	}
	const struct label draft = { .offset = (uint32_t)(start / 8),
				     .length = (uint32_t)((r->place - start) / 8),
				     .line = line };
	return put_label(r, name, &draft);
}

/* A choice more in the store; false where it has none of the words. */
bool add_choice(struct reading *r, uint64_t value, struct span words)
{
	struct store *store = &r->store;
	void *at = store->choice;
	if (!make_room(r, &at, store->choices, &store->choice_room, sizeof *store->choice))
		return false;
	store->choice = at;
	const char *kept = keep_text(r, words);
	if (kept != NULL)
		store->choice[store->choices++] = (struct choice){ value, kept };
	return kept != NULL;
}
