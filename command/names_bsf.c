/*
 * A maker's BSF, as edk2's GenCfgOpt.py writes it. In a StructDef each Find begins a block at its
 * mark's first byte, and what follows stands one after another: so a statement there that can't be
 * followed refuses the file in the block that is ours, and is passed over in any other. A part that
 * has no end refuses it too: it isn't whole.
 */
#include "names_bsf.h"

#include <stdlib.h>
#include <string.h>

/* A statement of a StructDef that is not understood: what comes after it would be misplaced. */
static void lose_place(struct bsf *b, const struct token *token)
{
	struct reading *r = b->r;
	if (r->block == OURS)
		refuse(r, NAMES_BROKEN, token->line,
		       "%s can't be followed, and the offsets after it hang on it",
		       show_span(token->span).text);
	else
		pass_line(r, token->line);
}

/* ---- StructDef ---- */

/* Find "QEMUPD_M": what follows stands after the mark. */
static void take_find(struct bsf *b, const struct token *find)
{
	struct reading *r = b->r;
	const struct token mark = next_token(r);
	begin_block(r, mark.span, find->line);
	go_on(r, mark.span.length, 8);
	if (mark.kind != A_TEXT && mark.kind != A_WORD)
		pass_line(r, find->line);
}

/* 4 bytes, or 3 bits: how many, and of how many bits each; 0 bits where it is neither. */
static unsigned take_size(struct reading *r, uint64_t *amount)
{
	const struct token number = next_token(r);
	if (number.kind != A_WORD || !span_number(number.span, amount))
		return 0;
	const struct token unit = next_token(r);
	if (is_token(&unit, "bytes") || is_token(&unit, "byte"))
		return 8;
	return is_token(&unit, "bits") || is_token(&unit, "bit") ? 1 : 0;
}

/* Skip 35 bytes */
static void take_skip(struct bsf *b, const struct token *skip)
{
	uint64_t amount = 0;
	const unsigned unit = take_size(b->r, &amount);
	if (unit == 0)
		lose_place(b, skip);
	else
		go_on(b->r, amount, unit);
}

/* A statement begins here, whatever stands before it. */
static bool begins(const struct token *token)
{
	return token->kind == AT_END || is_token(token, "Find") || is_token(token, "Skip") ||
	       is_token(token, "EndStruct") || (token->kind == A_WORD && token->span.at[0] == '$');
}

/*
 * $_DEFAULT_ = 0x00070000, or several numbers with commas between them, which may go on after a line
 * that ends with one. None at all is no fault; one that isn't understood costs no place.
 */
static void take_default(struct bsf *b, size_t label)
{
	struct reading *r = b->r;
	struct token token = peek_token(r);
	if (!is_token(&token, "$_DEFAULT_"))
		return;
	const size_t line = next_token(r).line;
	const char *start = r->at, *end = r->at;
	size_t last = line;
	bool more = false;
	while (token = peek_token(r), !begins(&token) && (more || token.line == last)) {
		more = is_sign_token(&token, ',');
		last = next_token(r).line;
		end = r->at;
	}
	struct span value = trim((struct span){ start, (size_t)(end - start) });
	if (value.length == 0 || value.at[0] != '=')
		pass_over(r, line);
	else if (label != NO_LABEL)
		give_value(r, label, (struct span){ value.at + 1, value.length - 1 }, line);
}

/* $gQemuFspPkgTokenSpaceGuid_StackBase 4 bytes $_DEFAULT_ = 0x00070000 */
static void take_name(struct bsf *b, const struct token *name)
{
	struct reading *r = b->r;
	uint64_t amount = 0;
	void *at = b->standing;
	const struct span span = { name->span.at + 1, name->span.length - 1 };
	const unsigned unit = take_size(r, &amount);
	if (unit == 0) {
		lose_place(b, name);
		return;
	}
	if (!make_room(r, &at, b->standings, &b->standing_room, sizeof *b->standing))
		return;
	b->standing = at;
	const size_t label = add_label(r, span, amount, unit, name->line);
	b->standing[b->standings] = (struct standing){ span, b->standings, label };
	b->standings++;
	if (r->block == NO_BLOCK)
		pass_over(r, name->line);
	take_default(b, label);
}

/* StructDef .. EndStruct */
static void take_struct(struct bsf *b, size_t line)
{
	struct reading *r = b->r;
	r->block = NO_BLOCK;
	for (struct token token; token = next_token(r), !is_token(&token, "EndStruct");) {
		if (token.kind == AT_END) {
			refuse(r, NAMES_BROKEN, line, "StructDef has no EndStruct");
			return;
		}
		if (is_token(&token, "Find"))
			take_find(b, &token);
		else if (is_token(&token, "Skip"))
			take_skip(b, &token);
		else if (token.kind == A_WORD && token.span.at[0] == '$')
			take_name(b, &token);
		else
			lose_place(b, &token);
	}
	r->block = NO_BLOCK;
}

/* ---- List ---- */

/* Selection 0x1 , "Enabled" */
static void take_selection(struct bsf *b, struct list *list, size_t line)
{
	struct reading *r = b->r;
	uint64_t value = 0;
	const struct token number = next_token(r);
	struct token words = number.line == line ? next_token(r) : number;
	if (is_sign_token(&words, ','))
		words = next_token(r);
	const bool right = number.kind == A_WORD && span_number(number.span, &value) &&
			   words.kind == A_TEXT && list->count < MOST_CHOICES;
	if (right && add_choice(r, value, words.span))
		list->count++;
	else
		pass_line(r, line);
}

/* List &EN_DIS .. EndList */
static void take_list(struct bsf *b, size_t line)
{
	struct reading *r = b->r;
	void *at = b->list;
	const struct token name = next_token(r);
	struct list list = { .name = name.span, .first = r->store.choices };
	if (!make_room(r, &at, b->lists, &b->list_room, sizeof *b->list))
		return;
	b->list = at;
	for (struct token token; token = next_token(r), !is_token(&token, "EndList");) {
		if (token.kind == AT_END) {
			refuse(r, NAMES_BROKEN, line, "List has no EndList");
			return;
		}
		if (is_token(&token, "Selection"))
			take_selection(b, &list, token.line);
		else
			pass_line(r, token.line);
	}
	if (name.kind == A_WORD)
		b->list[b->lists++] = list;
}

/* ---- the file ---- */

/* A part that says nothing of names, up to its end. */
static void pass_part(struct reading *r, const char *end, size_t line)
{
	for (struct token token; token = next_token(r), !is_token(&token, end);)
		if (token.kind == AT_END) {
			refuse(r, NAMES_BROKEN, line, "a part has no %s", end);
			return;
		}
}

/* A part of any kind. */
static void take_part(struct bsf *b, const struct token *token)
{
	struct reading *r = b->r;
	if (is_token(token, "StructDef"))
		take_struct(b, token->line);
	else if (is_token(token, "List"))
		take_list(b, token->line);
	else if (is_token(token, "Page"))
		take_page(b, token->line);
	else if (is_token(token, "GlobalDataDef"))
		pass_part(r, "EndGlobalData", token->line);
	else if (is_token(token, "BeginInfoBlock"))
		pass_part(r, "EndInfoBlock", token->line);
	else
		pass_line(r, token->line);
}

/* All parts, then what the pages say of the names. */
void read_bsf(struct reading *r)
{
	struct bsf b = { .r = r };
	for (struct token token; token = next_token(r), token.kind != AT_END;)
		take_part(&b, &token);
	if (!r->refused)
		join_pages(&b);
	free(b.list);
	free(b.standing);
	free(b.mention);
}
