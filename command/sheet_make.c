/*
 * sheet make IMAGE TEXT OUT: a sheet from a text that a person writes. What is no sheet at all is
 * judged by the text's reader; all else by the library, which is asked after each line with the
 * sheet of all lines so far, on a copy of the image at its own base: the first line whose sheet it
 * refuses is the one at fault.
 */
#include <stdio.h>
#include <stdlib.h>
#include <string.h>

#include "changes.h"
#include "edition.h"
#include "files.h"
#include "json.h"
#include "making.h"
#include "messages.h"
#include "show.h"

/* ---- entries ---- */

/* 15 or 17 of the last entry: its values, and those that they are held against. */
static enum status refuse_last(uint32_t number, const struct making *m)
{
	const struct draft *draft = m->draft;
	const size_t index = draft->count - 1;
	const struct entry none = { 0 }, *last = &draft->entry[index];
	const struct entry *before = index == 0 ? &none : &draft->entry[index - 1];
	if (number != PAJURENDA_SHEET && number != PAJURENDA_FIELD)
		return fail_answer();
	begin_line_refusal(number, &m->text);
	fputs("offset ", saying());
	show_offset(saying(), last->offset);
	if (number == PAJURENDA_FIELD) {
		fprintf(saying(), " length %zu, the region's size z is ", last->length);
		show_offset(saying(), pajurenda_field(m->reading, PAJURENDA_READ_SIZE));
		return end_refusal();
	}
	fputs(" (the one before ends at ", saying());
	show_offset(saying(), before->offset + before->length);
	fprintf(saying(), ") length %zu, ", last->length);
	fprintf(saying(), "entries so far %zu, bytes %zu", draft->count,
		lay_out(m->draft).length);
	return end_refusal();
}

/* A line with an entry. */
static enum status take_entry(struct making *m, char *line)
{
	struct written *written = m->written;
	if (!take_written(&m->text, names_of(m->naming), line, written))
		return FAILED;
	if (!add_entry(m->draft, written->offset))
		return fail_answer();
	for (size_t i = 0; i < written->length; i++)
		if (!add_byte(m->draft, written->bytes[i]))
			return fail_answer();
	const uint32_t number = ask(m);
	return number == PAJURENDA_ACCEPTED ? check_replaced(m) : refuse_last(number, m);
}

/* ---- the text ---- */

/* A line of any kind. */
static enum status take_line(struct making *m, char *line)
{
	if (!is_clean(&m->text, line))
		return FAILED;
	const size_t first = strspn(line, " \t");
	if (line[first] == 0 || line[first] == '#')
		return FINE;
	const struct part *part = find_part(line);
	return part != NULL ? take_part(m, part, line) : take_entry(m, line);
}

/* A text without an entry would make a sheet that sets nothing. */
static enum status want_entry(const struct making *m)
{
	if (m->draft->count != 0)
		return FINE;
	return fail_usage("sheet make", "", m->text.name,
			  ": it has no entry, so its sheet would set nothing; sheet empty writes such a sheet");
}

/* The sheet saved, and each entry with what it replaces. */
static enum status save_made(struct making *m, const char *out)
{
	const struct named made = { .name = out, .bytes = lay_out(m->draft) };
	if (ask(m) != PAJURENDA_ACCEPTED)
		return fail_answer();
	if (save_sheet(out, &made.bytes, m->naming, &m->image.bytes) != FINE)
		return FAILED;
	return is_json() ? FINE : show_changes(&m->image.bytes, &made.bytes, names_of(m->naming));
}

/* All lines, and the whole sheet once more before it is saved. */
static enum status take_lines(struct making *m, const char *out)
{
	char *line;
	while ((line = next_line(&m->text)) != NULL)
		if (take_line(m, line) != FINE)
			return FAILED;
	if (want_parts(m, "sheet make") != FINE || want_entry(m) != FINE)
		return FAILED;
	return save_made(m, out);
}

/* A loaded text for an image that reads; a sheet given as the text is told from one. */
static enum status make_of(struct making *m, struct named *text, const char *out,
			   const struct options *options)
{
	struct naming naming = { .file = { .name = NULL } };
	uint8_t judged[PAJURENDA_SHEET_BYTES];
	const uint32_t number = read_newer(&m->image.bytes, m->reading);
	if (number != PAJURENDA_ACCEPTED)
		return refuse_image(number, pajurenda_field(m->reading, PAJURENDA_READ_INDEX),
				    &m->image);
	if (pajurenda_sheet(text->bytes.at, text->bytes.length, judged, sizeof judged) ==
	    PAJURENDA_ACCEPTED)
		return fail_usage("sheet make", "", text->name,
				  " is a sheet already; sheet show prints the text of one");
	m->naming = &naming;
	enum status status = FAILED;
	if (load_naming(options, &m->image, m->reading, &naming) &&
	    begin_making(m, text->name, &text->bytes))
		status = take_lines(m, out);
	end_making(m);
	end_naming(&naming);
	return status;
}

/* sheet make IMAGE TEXT OUT */
enum status do_sheet_make(char **word, const struct options *options)
{
	struct making m = { .image = { .name = word[0] } };
	struct named text = { .name = word[1] };
	if (is_same_file(m.image.name, word[2]))
		return fail_lost("sheet make", "IMAGE");
	if (is_same_file(text.name, word[2]))
		return fail_lost("sheet make", "TEXT");
	if (options->names != NULL && is_same_file(options->names, word[2]))
		return fail_lost("sheet make", "the file of names");
	if (!is_free(word[2]) || !load(m.image.name, &m.image.bytes))
		return FAILED;
	const enum status status =
		load_text(text.name, &text.bytes) ? make_of(&m, &text, word[2], options) : FAILED;
	free(text.bytes.at);
	free(m.image.bytes.at);
	return status;
}
