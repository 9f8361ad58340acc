/*
 * The pages of a BSF: display names, and which list a setting's choices are. A page names a setting
 * without saying in which block; where blocks share a name, what all pages agree on is said of each,
 * and where they don't agree, but are as many as the blocks, they go by order, as in edk2's
 * FspDscBsf2Yaml.py. Else nothing is said: words of another setting would be worse than none.
 */
#include <stdlib.h>
#include <string.h>

#include "names_bsf.h"

/* ---- reading ---- */

/* A name's line: Combo $name, "display name", &list, */
static void take_mention(struct bsf *b, size_t line)
{
	struct reading *r = b->r;
	void *at = b->mention;
	const struct token name = next_token(r);
	struct token title = next_token(r);
	if (is_sign_token(&title, ','))
		title = next_token(r);
	if (name.kind != A_WORD || name.span.at[0] != '$' || title.kind != A_TEXT) {
		pass_line(r, line);
		return;
	}
	if (!make_room(r, &at, b->mentions, &b->mention_room, sizeof *b->mention))
		return;
	b->mention = at;
	struct mention *mention = &b->mention[b->mentions];
	*mention = (struct mention){ .name = { name.span.at + 1, name.span.length - 1 },
				     .title = title.span, .order = b->mentions++, .line = line };
	struct token list = peek_token(r);
	if (is_sign_token(&list, ',')) {
		(void)next_token(r);
		list = peek_token(r);
	}
	if (list.kind == A_WORD && list.span.at[0] == '&')
		mention->list = next_token(r).span;
}

/* A line that is about no name: help, a table's columns, and what belongs to the line before. */
static bool is_known(const struct token *token)
{
	static const char *const words[] = { "Help", "HEX", "DEC", "BIN", "Column", "bytes", "byte" };
	uint64_t value = 0;
	for (size_t i = 0; i < sizeof words / sizeof words[0]; i++)
		if (is_token(token, words[i]))
			return true;
	return token->kind == A_TEXT || is_sign_token(token, ',') ||
	       (token->kind == A_WORD && span_number(token->span, &value));
}

/* Up to the end of a line that starts with #: when a page shows what follows. */
static void pass_condition(struct reading *r, size_t line)
{
	const size_t passed = r->passed, first = r->passed_line;
	pass_line(r, line);
	r->passed = passed;
	r->passed_line = first;
}

/* Page "FSP T" .. EndPage, with pages in it. */
void take_page(struct bsf *b, size_t line)
{
	struct reading *r = b->r;
	for (size_t depth = 1; depth > 0;) {
		const struct token token = next_token(r);
		if (token.kind == AT_END) {
			refuse(r, NAMES_BROKEN, line, "Page has no EndPage");
			return;
		}
		if (is_token(&token, "Page"))
			depth++;
		else if (is_token(&token, "EndPage"))
			depth--;
		else if (is_token(&token, "Combo") || is_token(&token, "EditNum") ||
			 is_token(&token, "EditText") || is_token(&token, "Table"))
			take_mention(b, token.line);
		else if (token.kind == A_WORD && token.span.at[0] == '#')
			pass_condition(r, token.line);
		else if (!is_known(&token))
			pass_line(r, token.line);
	}
}

/* ---- joining ---- */

/* Stretches in an order. */
static int compare_spans(struct span one, struct span other)
{
	const size_t least = one.length < other.length ? one.length : other.length;
	const int order = least == 0 ? 0 : memcmp(one.at, other.at, least);
	return order != 0 ? order : (one.length > other.length) - (one.length < other.length);
}

static int by_list(const void *one, const void *other)
{
	return compare_spans(((const struct list *)one)->name, ((const struct list *)other)->name);
}

static int by_standing(const void *one, const void *other)
{
	const struct standing *a = one, *b = other;
	const int order = compare_spans(a->name, b->name);
	return order != 0 ? order : (a->order > b->order) - (a->order < b->order);
}

static int by_mention(const void *one, const void *other)
{
	const struct mention *a = one, *b = other;
	const int order = compare_spans(a->name, b->name);
	return order != 0 ? order : (a->order > b->order) - (a->order < b->order);
}

/* Both say the same of their name. */
static bool agree(const struct mention *one, const struct mention *other)
{
	return compare_spans(one->title, other->title) == 0 &&
	       compare_spans(one->list, other->list) == 0;
}

/* The list by its name; NULL where there is none or several. */
static const struct list *find_list(const struct bsf *b, struct span name)
{
	const struct list key = { .name = name };
	const struct list *found =
		name.length == 0 || b->lists == 0
			? NULL : bsearch(&key, b->list, b->lists, sizeof key, by_list);
	if (found == NULL || (found > b->list && by_list(found - 1, found) == 0) ||
	    (found + 1 < b->list + b->lists && by_list(found + 1, found) == 0))
		return NULL;
	return found;
}

/* What a page says of a name; the display name is kept once for all that share it. */
static void say_of(struct bsf *b, size_t label, const struct mention *mention, const char **title)
{
	const struct list *list = find_list(b, mention->list);
	struct made *made = &b->r->store.made[label];
	if (*title == NULL)
		*title = keep_text(b->r, mention->title);
	made->label.title = *title;
	if (list != NULL) {
		made->first = list->first;
		made->label.choices = list->count;
	} else if (mention->list.length != 0)
		pass_over(b->r, mention->line);
}

/* All that stands under one name, and all that pages say of it. */
static void join_name(struct bsf *b, const struct standing *standing, size_t standings,
		      const struct mention *mention, size_t mentions)
{
	const char *shared = NULL;
	bool same = true;
	for (size_t i = 1; i < mentions && same; i++)
		same = agree(&mention[0], &mention[i]);
	for (size_t i = 0; i < standings; i++) {
		const char *own = NULL;
		if (standing[i].label == NO_LABEL)
			continue;
		if (same)
			say_of(b, standing[i].label, &mention[0], &shared);
		else if (mentions == standings)
			say_of(b, standing[i].label, &mention[i], &own);
		else
			pass_over(b->r, mention[0].line);
	}
}

/* All three in order of name. */
static void sort_all(struct bsf *b)
{
	if (b->lists > 0)
		qsort(b->list, b->lists, sizeof *b->list, by_list);
	if (b->standings > 0)
		qsort(b->standing, b->standings, sizeof *b->standing, by_standing);
	if (b->mentions > 0)
		qsort(b->mention, b->mentions, sizeof *b->mention, by_mention);
}

/* What belongs together joined; a page's line about a name that stands nowhere is passed over. */
void join_pages(struct bsf *b)
{
	size_t s = 0, m = 0;
	sort_all(b);
	while (m < b->mentions) {
		const struct span name = b->mention[m].name;
		size_t last = m + 1;
		while (s < b->standings && compare_spans(b->standing[s].name, name) < 0)
			s++;
		size_t after = s;
		while (after < b->standings && compare_spans(b->standing[after].name, name) == 0)
			after++;
		while (last < b->mentions && compare_spans(b->mention[last].name, name) == 0)
			last++;
		if (after == s)
			pass_over(b->r, b->mention[m].line);
		else
			join_name(b, &b->standing[s], after - s, &b->mention[m], last - m);
		s = after;
		m = last;
	}
}
