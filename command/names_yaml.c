/*
 * The YAML form, as edk2's FspDscBsf2Yaml.py writes it and its GenYamlCfg.py reads it: line by line,
 * by how far each is indented. Under configs each `- Name :` is a setting where it has a length, and
 * one stands after another in the file's order, however deep. A find begins a block at the place of
 * the setting after it. What a template or another file would put there can't be followed.
 */
#include <stdlib.h>
#include <string.h>

#include "names_parts.h"

/* A line: what stands in it, and how far it is indented. */
struct yaml_line {
	struct span text;
	size_t indent, line;
};

/* A variable, which a value may name. */
struct variable {
	struct span name, value;
};

/* The setting at hand, and what its fields say. */
struct item {
	bool open;
	struct span name;
	size_t indent, line;
	struct span find, length, title, type, option, value;
};

struct yaml {
	struct reading *r;
	enum { ELSEWHERE, VARIABLES, CONFIGS } section;
	struct item item;
	struct variable *variable;
	size_t variables, variable_room;
};

/* ---- lines ---- */

/* The next line that says something; false after the last. */
static bool next_yaml_line(struct reading *r, struct yaml_line *line)
{
	while (r->at < r->end && !r->refused) {
		const char *start = r->at;
		const char *end = memchr(start, '\n', (size_t)(r->end - start));
		const struct span all = { start, (size_t)((end == NULL ? r->end : end) - start) };
		r->at = end == NULL ? r->end : end + 1;
		line->text = trim(all);
		line->indent = (size_t)(line->text.at - start);
		line->line = r->line++;
		if (line->text.length > 0 && line->text.at[0] != '#')
			return true;
	}
	return false;
}

/* A line in a block that is ours, and that the offsets hang on; in any other it is passed over. */
static void lose_line(struct yaml *y, const struct yaml_line *line)
{
	if (y->section == CONFIGS && y->r->block == OURS)
		refuse(y->r, NAMES_BROKEN, line->line,
		       "%s can't be followed, and the offsets after it hang on it",
		       show_span(line->text).text);
	else
		pass_over(y->r, line->line);
}

/* What follows a line that ends with >, deeper than it: one text over several lines. */
static struct span take_folded(struct reading *r, size_t indent)
{
	const char *start = NULL, *end = NULL;
	for (struct reading ahead = *r;;) {
		struct yaml_line line;
		if (!next_yaml_line(&ahead, &line) || line.indent <= indent)
			break;
		start = start == NULL ? line.text.at : start;
		end = line.text.at + line.text.length;
		r->at = ahead.at;
		r->line = ahead.line;
	}
	return start == NULL ? (struct span){ r->at, 0 } : (struct span){ start, (size_t)(end - start) };
}

/* ---- a setting ---- */

/* 0x0004, 4, 3b, 2W: how many, and of how many bits each; 0 bits where it is none of them. */
static unsigned size_of(struct span length, uint64_t *amount)
{
	static const char units[] = "bBWDQ";
	static const unsigned bits[] = { 1, 8, 16, 32, 64 };
	if (span_number(length, amount))
		return 8;
	const char *unit = length.length < 2
				   ? NULL : memchr(units, length.at[length.length - 1], sizeof units - 1);
	length.length--;
	const bool right = unit != NULL && span_number(length, amount) &&
			   (length.length == 1 || length.at[1] != 'x');
	return right ? bits[unit - units] : 0;
}

/* $(NAME) is what the variable is; any other value is itself. */
static struct span value_of(const struct yaml *y, struct span value)
{
	if (value.length < 4 || memcmp(value.at, "$(", 2) != 0 || value.at[value.length - 1] != ')')
		return value;
	const struct span name = { value.at + 2, value.length - 3 };
	for (size_t i = 0; i < y->variables; i++) {
		struct span found = y->variable[i].value;
		if (y->variable[i].name.length == name.length &&
		    memcmp(y->variable[i].name.at, name.at, name.length) == 0)
			return cut_at(&found, " #");
	}
	return value;
}

/* What stands before the next choice: ; is between them, or a comma that a blank or a line's end
   follows where the option has no ; at all. */
static struct span cut_choice(struct span *rest, bool semicolons)
{
	size_t i = 0;
	for (; i < rest->length; i++) {
		const char c = rest->at[i];
		if (semicolons ? c == ';' : c == ',' && i + 1 < rest->length && rest->at[i + 1] <= ' ')
			break;
	}
	const struct span choice = { rest->at, i };
	const size_t passed = i < rest->length ? i + 1 : i;
	*rest = (struct span){ rest->at + passed, rest->length - passed };
	return trim(choice);
}

/* One of the choices: 0x1:Enabled */
static bool take_choice(struct reading *r, size_t index, struct span choice)
{
	uint64_t value = 0;
	const struct span number = cut_at(&choice, ":");
	if (!span_number(number, &value) || r->store.made[index].label.choices == MOST_CHOICES ||
	    !add_choice(r, value, choice))
		return false;
	r->store.made[index].label.choices++;
	return true;
}

/* All of them; where one can't be told from the next, none is taken. */
static void take_choices(struct yaml *y, size_t index)
{
	static const char en_dis[] = "0:Disable, 1:Enable";
	struct reading *r = y->r;
	struct span rest = unquote(y->item.option);
	if (span_is(rest, "$EN_DIS"))
		rest = (struct span){ en_dis, sizeof en_dis - 1 };
	const bool semicolons = rest.length > 0 && memchr(rest.at, ';', rest.length) != NULL;
	while (rest.length > 0)
		if (!take_choice(r, index, cut_choice(&rest, semicolons))) {
			r->store.made[index].label.choices = 0;
			pass_over(r, y->item.line);
			return;
		}
}

/* What the fields say of a name that is ours. */
static void take_fields(struct yaml *y, size_t index)
{
	const struct item *item = &y->item;
	const struct span title = unquote(item->title);
	if (item->value.length > 0)
		give_value(y->r, index, value_of(y, item->value), item->line);
	if (!span_is(item->type, "Reserved") || !span_is(title, "Reserved"))
		y->r->store.made[index].label.title = keep_text(y->r, title);
	if (span_is(item->type, "Combo"))
		take_choices(y, index);
}

/* The setting at hand is whole. What has no length is a group, or a node that takes no place; the
   first eight bytes are the mark itself, and a $SKIP is no name. */
static void close_item(struct yaml *y)
{
	struct reading *r = y->r;
	const struct item *item = &y->item;
	uint64_t amount = 0;
	if (!item->open)
		return;
	y->item.open = false;
	if (item->find.length > 0)
		begin_block(r, unquote(item->find), item->line);
	if (item->name.at[0] == '$' || item->length.length == 0)
		return;
	const unsigned unit = size_of(item->length, &amount);
	const struct yaml_line line = { .text = item->length, .line = item->line };
	if (unit == 0)
		lose_line(y, &line);
	else if (span_is(item->option, "$SKIP") || (r->place == 0 && amount == 8 && unit == 8))
		go_on(r, amount, unit);
	else {
		const size_t index = add_label(r, item->name, amount, unit, item->line);
		if (index != NO_LABEL)
			take_fields(y, index);
	}
}

/* ---- lines by what they are ---- */

/* - Name : */
static void open_item(struct yaml *y, const struct yaml_line *line)
{
	const struct span text = { line->text.at + 1, line->text.length - 1 };
	const struct span name = trim((struct span){ text.at, text.length == 0 ? 0 : text.length - 1 });
	const bool inside = y->item.open && y->item.length.length > 0 && y->item.name.at[0] != '$' &&
			    line->indent > y->item.indent;
	close_item(y);
	if (text.length == 0 || text.at[text.length - 1] != ':' || name.length == 0 || inside)
		lose_line(y, line);
	else
		y->item = (struct item){ .open = true, .name = name, .indent = line->indent,
					 .line = line->line };
}

/* The field that a key names; NULL where it says nothing that is wanted. */
static struct span *field_of(struct item *item, struct span key)
{
	return span_is(key, "length") ? &item->length : span_is(key, "value") ? &item->value
	     : span_is(key, "name") ? &item->title : span_is(key, "type") ? &item->type
	     : span_is(key, "option") ? &item->option : span_is(key, "find") ? &item->find : NULL;
}

/* A key that is known, and of which nothing is wanted. */
static bool is_idle(struct span key)
{
	return span_is(key, "help") || span_is(key, "page") || span_is(key, "order") ||
	       span_is(key, "struct") || span_is(key, "condition");
}

/* key : value, of the setting at hand; a value of > is the deeper lines after it. */
static void take_field(struct yaml *y, const struct yaml_line *line)
{
	struct span value = line->text;
	const struct span key = cut_at(&value, ":");
	value = trim(value);
	if (span_is(value, ">"))
		value = take_folded(y->r, line->indent);
	struct span *field = field_of(&y->item, key);
	if (!y->item.open || line->indent <= y->item.indent)
		lose_line(y, line);
	else if (field != NULL)
		*field = value;
	else if (!is_idle(key))
		pass_over(y->r, line->line);
}

/* KEY : value, among the variables. */
static void take_variable(struct yaml *y, const struct yaml_line *line)
{
	struct span value = line->text;
	void *at = y->variable;
	const struct span name = cut_at(&value, ":");
	if (y->variables == MOST_CHOICES) {
		pass_over(y->r, line->line);
		return;
	}
	if (!make_room(y->r, &at, y->variables, &y->variable_room, sizeof *y->variable))
		return;
	y->variable = at;
	y->variable[y->variables++] = (struct variable){ name, trim(value) };
}

/* A line that isn't indented names what follows. */
static void take_section(struct yaml *y, const struct yaml_line *line)
{
	struct span rest = line->text;
	const struct span name = cut_at(&rest, ":");
	close_item(y);
	y->r->block = NO_BLOCK;
	y->section = span_is(name, "configs") ? CONFIGS : span_is(name, "variable") ? VARIABLES : ELSEWHERE;
	if (y->section == ELSEWHERE && !span_is(name, "template"))
		pass_over(y->r, line->line);
}

/* All lines. */
void read_yaml(struct reading *r)
{
	struct yaml y = { .r = r };
	for (struct yaml_line line; next_yaml_line(r, &line);) {
		if (line.indent == 0 && line.text.at[0] != '-')
			take_section(&y, &line);
		else if (y.section == VARIABLES)
			take_variable(&y, &line);
		else if (y.section == CONFIGS && line.text.at[0] == '-')
			open_item(&y, &line);
		else if (y.section == CONFIGS)
			take_field(&y, &line);
	}
	if (!r->refused)
		close_item(&y);
	free(y.variable);
}
