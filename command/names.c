/*
 * A file of names: which of the forms it has, its reading, and the order that it is looked up by. A
 * file is text: one with a byte 0 is none of the forms.
 */
#include "names.h"

#include <stdlib.h>
#include <string.h>

#include "names_parts.h"

/* ---- which form ---- */

/* Up to a stretch's next mark, or its end. */
static const char *find_end(const char *at, const char *end, const char *mark)
{
	struct span rest = { at, (size_t)(end - at) };
	(void)cut_at(&rest, mark);
	return rest.at;
}

/* The first word that no comment of any form holds. */
static struct span first_word(const char *at, const char *end)
{
	while (at < end) {
		if (*at == '#' || (end - at >= 2 && memcmp(at, "//", 2) == 0))
			at = find_end(at, end, "\n");
		else if (end - at >= 2 && memcmp(at, "/*", 2) == 0)
			at = find_end(at + 2, end, "*/");
		else if ((unsigned char)*at <= ' ')
			at++;
		else
			break;
	}
	const char *start = at;
	while (at < end && (unsigned char)*at > ' ' && *at != ':')
		at++;
	return (struct span){ start, (size_t)(at - start) };
}

/* The words that a file of each form begins with. */
static const struct opening {
	const char *word;
	enum names_form form;
} openings[] = {
	{ "GlobalDataDef", NAMES_BSF }, { "StructDef", NAMES_BSF }, { "List", NAMES_BSF },
	{ "Page", NAMES_BSF }, { "BeginInfoBlock", NAMES_BSF }, { "variable", NAMES_YAML },
	{ "template", NAMES_YAML }, { "configs", NAMES_YAML }, { "identity", NAMES_TEXT },
	{ "revision", NAMES_TEXT }, { "extended", NAMES_TEXT }, { "find", NAMES_TEXT },
};

/* The form, by the first word; a number is a text's where the lines on top are missing. */
static bool find_form(struct span word, enum names_form *form)
{
	uint64_t value = 0;
	*form = NAMES_TEXT;
	for (size_t i = 0; i < sizeof openings / sizeof openings[0]; i++)
		if (span_is(word, openings[i].word)) {
			*form = openings[i].form;
			return true;
		}
	return span_number(word, &value);
}

/* ---- the table ---- */

static int by_offset(const void *one, const void *other)
{
	const struct made *a = one, *b = other;
	return (a->label.offset > b->label.offset) - (a->label.offset < b->label.offset);
}

static int by_name(const void *one, const void *other)
{
	return strcmp((*(const struct label *const *)one)->name,
		      (*(const struct label *const *)other)->name);
}

static int by_brief(const void *one, const void *other)
{
	return strcmp((*(const struct label *const *)one)->brief,
		      (*(const struct label *const *)other)->brief);
}

/* The names in order of offset, none over another. */
static void order_labels(struct reading *r)
{
	struct store *store = &r->store;
	if (store->count > 0)
		qsort(store->made, store->count, sizeof *store->made, by_offset);
	for (size_t i = 1; i < store->count; i++) {
		const struct label *before = &store->made[i - 1].label, *label = &store->made[i].label;
		if (label->offset - before->offset < before->length)
			refuse(r, NAMES_BROKEN, label->line, "%.60s lies over %.60s of line %zu",
			       label->name, before->name, before->line);
	}
}

/* The table as it is looked up; false where there is no memory. */
static bool lay_out_names(struct reading *r, struct names *names)
{
	struct store *store = &r->store;
	const size_t count = store->count;
	store->label = calloc(count + 1, sizeof *store->label);
	names->by_name = calloc(count + 1, sizeof *names->by_name);
	names->by_brief = calloc(count + 1, sizeof *names->by_brief);
	if (store->label == NULL || names->by_name == NULL || names->by_brief == NULL)
		return false;
	for (size_t i = 0; i < count; i++) {
		store->label[i] = store->made[i].label;
		if (store->label[i].choices > 0)
			store->label[i].choice = store->choice + store->made[i].first;
		names->by_name[i] = names->by_brief[i] = &store->label[i];
	}
	qsort(names->by_name, count, sizeof *names->by_name, by_name);
	qsort(names->by_brief, count, sizeof *names->by_brief, by_brief);
	names->label = store->label;
	names->count = count;
	return true;
}

/* ---- reading ---- */

/* The mark of the image for a sentence. */
static struct shown show_mark(const struct names_for *image)
{
	return show_span((struct span){ (const char *)image->mark, sizeof image->mark });
}

/* A file of that form, up to its names in order. */
static void read_form(struct reading *r, enum names_form form)
{
	static void (*const readers[])(struct reading *) = {
		[NAMES_BSF] = read_bsf, [NAMES_YAML] = read_yaml, [NAMES_TEXT] = read_text,
	};
	readers[form](r);
	if (!r->met)
		refuse(r, NAMES_NO_MARK, 0, "no block of it is for this region: the image has %s, the "
		       "file has %s", show_mark(r->image).text, *r->marks == 0 ? "none" : r->marks);
	if (!r->refused)
		order_labels(r);
}

/* What is refused keeps nothing; of the rest what was only for the making goes. */
static bool finish(struct reading *r, struct names *names)
{
	struct store *kept = malloc(sizeof *kept);
	if (kept == NULL || (!r->refused && !lay_out_names(r, names)))
		refuse(r, NAMES_NO_MEMORY, 0, "there is no memory for its names");
	names->passed = r->passed;
	names->passed_line = r->passed_line;
	free(r->store.made);
	r->store.made = NULL;
	if (kept != NULL)
		*kept = r->store;
	names->kept = kept;
	if (r->refused)
		names_free(names);
	return !r->refused;
}

/* The names in a file's bytes. */
bool names_read(const uint8_t *file, size_t length, const struct names_for *image,
		struct names *names, struct names_problem *why)
{
	const bool mark = length >= 3 && memcmp(file, "\xEF\xBB\xBF", 3) == 0;
	const char *start = (const char *)file + (mark ? 3 : 0), *end = (const char *)file + length;
	struct reading r = { .image = image, .at = start, .end = end, .line = 1, .why = why,
			     .store = { .room = length + 2 } };
	*names = (struct names){ .form = NAMES_TEXT };
	r.store.texts = malloc(r.store.room);
	r.store.given = calloc((size_t)image->size + 1, 1);
	if (r.store.texts == NULL || r.store.given == NULL)
		refuse(&r, NAMES_NO_MEMORY, 0, "there is no memory for its names");
	else if (length > 0 && memchr(file, 0, length) != NULL)
		refuse(&r, NAMES_NO_FORM, 0, "it has a byte 0, so it is no text: neither a BSF, nor its "
		       "YAML form, nor names of our own");
	else if (!find_form(first_word(start, end), &names->form))
		refuse(&r, NAMES_NO_FORM, 0, "it begins with %s: neither a BSF, nor its YAML form, nor "
		       "names of our own", show_span(first_word(start, end)).text);
	else
		read_form(&r, names->form);
	return finish(&r, names);
}

/* The memory of names; none is left. */
void names_free(struct names *names)
{
	struct store *kept = names->kept;
	if (kept != NULL) {
		free(kept->texts);
		free(kept->given);
		free(kept->choice);
		free(kept->label);
	}
	free(kept);
	free(names->by_name);
	free(names->by_brief);
	*names = (struct names){ .form = names->form };
}
