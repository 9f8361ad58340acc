/*
 * A JSON document taken apart, as strictly as what we write ourselves needs: no number but whole ones up to
 * 2^53, no member twice, nothing after the end. What isn't such a document is none.
 */
#include "document.h"

#include <stdlib.h>
#include <string.h>

#define MOST_DEPTH 16
#define MOST_MEMBERS 64
#define MOST_NUMBER ((uint64_t)1 << 53)

/* What is left of the text. */
struct source {
	const char *at, *end;
};

static struct piece *take_part(struct source *source, unsigned depth);

/* The next sign that is no blank; 0 at the end. */
static char peek(struct source *source)
{
	while (source->at < source->end && strchr(" \t\r\n", *source->at) != NULL && *source->at != 0)
		source->at++;
	return source->at < source->end ? *source->at : 0;
}

/* That sign is this one, and is passed. */
static bool take(struct source *source, char sign)
{
	const bool taken = peek(source) == sign;
	source->at += taken;
	return taken;
}

/* ---- texts ---- */

/* Four hex digits; false where they aren't there. */
static bool take_four(struct source *source, uint32_t *value)
{
	static const char digits[] = "0123456789abcdef0123456789ABCDEF";
	*value = 0;
	for (int i = 0; i < 4; i++, source->at++) {
		const char *digit = source->at < source->end && *source->at != 0 ? strchr(digits, *source->at) : NULL;
		if (digit == NULL)
			return false;
		*value = *value * 16 + (uint32_t)((digit - digits) % 16);
	}
	return true;
}

/* A sign by its number, above 16 bits by two; false where it is none, or 0. */
static bool take_numbered(struct source *source, uint32_t *sign)
{
	uint32_t low = 0;
	if (!take_four(source, sign) || *sign == 0 || (*sign >= 0xDC00 && *sign <= 0xDFFF))
		return false;
	if (*sign < 0xD800 || *sign > 0xDFFF)
		return true;
	if (source->end - source->at < 6 || source->at[0] != '\\' || source->at[1] != 'u')
		return false;
	source->at += 2;
	if (!take_four(source, &low) || low < 0xDC00 || low > 0xDFFF)
		return false;
	*sign = 0x10000 + ((*sign - 0xD800) << 10) + (low - 0xDC00);
	return true;
}

/* A sign as UTF-8; after its bytes. */
static char *put_sign(char *to, uint32_t sign)
{
	const int more = sign < 0x80 ? 0 : sign < 0x800 ? 1 : sign < 0x10000 ? 2 : 3;
	static const uint8_t first[] = { 0, 0xC0, 0xE0, 0xF0 };
	*to++ = (char)(first[more] | sign >> (6 * more));
	for (int i = more - 1; i >= 0; i--)
		*to++ = (char)(0x80 | (sign >> (6 * i) & 0x3F));
	return to;
}

/* What stands after a backslash. */
static bool take_escape(struct source *source, char **to)
{
	static const char escapes[] = "\"\\/bfnrt", meant[] = "\"\\/\b\f\n\r\t";
	uint32_t sign = 0;
	if (source->at == source->end || *source->at == 0)
		return false;
	const char *found = strchr(escapes, *source->at++);
	if (found != NULL) {
		*(*to)++ = meant[found - escapes];
		return true;
	}
	if (source->at[-1] != 'u' || !take_numbered(source, &sign))
		return false;
	*to = put_sign(*to, sign);
	return true;
}

/* A text in quotes, in memory of its own; NULL where there is none. */
static char *take_text(struct source *source)
{
	if (!take(source, '"'))
		return NULL;
	const char *end = source->at;
	while (end < source->end && *end != '"')
		end += *end == '\\' && end + 1 < source->end ? 2 : 1;
	char *text = malloc((size_t)(end - source->at) + 1), *to = text;
	while (text != NULL && source->at < source->end && *source->at != '"') {
		const char c = *source->at++;
		const bool taken = c == '\\' ? take_escape(source, &to) : (unsigned char)c >= 32;
		if (!taken) {
			free(text);
			return NULL;
		}
		if (c != '\\')
			*to++ = c;
	}
	if (text == NULL || source->at >= source->end) {
		free(text);
		return NULL;
	}
	source->at++;
	*to = 0;
	return text;
}

/* ---- the other kinds ---- */

/* A whole number without a sign; false where it is none. */
static bool take_digits(struct source *source, uint64_t *value)
{
	const char *start = source->at;
	*value = 0;
	while (source->at < source->end && *source->at >= '0' && *source->at <= '9') {
		*value = *value * 10 + (uint64_t)(*source->at++ - '0');
		if (*value > MOST_NUMBER)
			return false;
	}
	return source->at > start && (*start != '0' || source->at == start + 1);
}

/* true, false or null. */
static bool take_word(struct source *source, struct piece *part)
{
	static const char *const words[] = { "true", "false", "null" };
	for (size_t i = 0; i < 3; i++) {
		const size_t length = strlen(words[i]);
		if ((size_t)(source->end - source->at) < length || memcmp(source->at, words[i], length) != 0)
			continue;
		source->at += length;
		part->text = malloc(length + 1);
		if (part->text != NULL)
			strcpy(part->text, words[i]);
		return part->text != NULL;
	}
	return false;
}

/* A member's name and colon, which no member before it has; false where there is none such. */
static bool take_name(struct source *source, const struct piece *object, char **name)
{
	unsigned count = 0;
	*name = take_text(source);
	bool taken = *name != NULL && take(source, ':');
	for (const struct piece *other = object->first; taken && other != NULL; other = other->next)
		taken = ++count < MOST_MEMBERS && strcmp(other->name, *name) != 0;
	if (!taken)
		free(*name);
	return taken;
}

/* What stands between the brackets of a list or an object, and the closing one. */
static bool take_inside(struct source *source, struct piece *part, unsigned depth)
{
	const char close = part->kind == A_LIST ? ']' : '}';
	struct piece **last = &part->first;
	source->at++;
	if (take(source, close))
		return true;
	do {
		char *name = NULL;
		if (part->kind == AN_OBJECT && !take_name(source, part, &name))
			return false;
		*last = take_part(source, depth + 1);
		if (*last == NULL) {
			free(name);
			return false;
		}
		(*last)->name = name;
		last = &(*last)->next;
	} while (take(source, ','));
	return take(source, close);
}

/* A part of any kind; NULL where there is none, or no memory. */
static struct piece *take_part(struct source *source, unsigned depth)
{
	const char sign = peek(source);
	struct piece *part = depth == MOST_DEPTH ? NULL : calloc(1, sizeof *part);
	if (part == NULL)
		return NULL;
	part->from = source->at;
	part->kind = sign == '"' ? A_TEXT : sign == '[' ? A_LIST : sign == '{' ? AN_OBJECT
		   : sign >= '0' && sign <= '9' ? A_NUMBER : A_WORD;
	bool taken = false;
	if (part->kind == A_TEXT)
		taken = (part->text = take_text(source)) != NULL;
	else if (part->kind == A_NUMBER)
		taken = take_digits(source, &part->number);
	else if (part->kind == A_WORD)
		taken = take_word(source, part);
	else
		taken = take_inside(source, part, depth);
	part->to = source->at;
	if (taken)
		return part;
	free_document(part);
	return NULL;
}

/* The whole document; NULL where the text is none. */
struct piece *take_document(const char *text, size_t length)
{
	struct source source = { text, text + length };
	struct piece *document = take_part(&source, 0);
	if (document == NULL || (peek(&source) == 0 && source.at == source.end))
		return document;
	free_document(document);
	return NULL;
}

/* A member by its name; NULL where there is none of that kind. */
const struct piece *member_of(const struct piece *object, const char *name, enum piece_kind kind)
{
	if (object == NULL || object->kind != AN_OBJECT)
		return NULL;
	for (const struct piece *member = object->first; member != NULL; member = member->next)
		if (strcmp(member->name, name) == 0)
			return member->kind == kind ? member : NULL;
	return NULL;
}

/* All its memory. */
void free_document(struct piece *part)
{
	while (part != NULL) {
		struct piece *next = part->next;
		free_document(part->first);
		free(part->name);
		free(part->text);
		free(part);
		part = next;
	}
}
