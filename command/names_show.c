/* Names and values as people read them, and all of them as a text that reads back. */
#include <inttypes.h>
#include <string.h>

#include "messages.h"
#include "names_parts.h"

/* BypassRelay ("Bypass relay at restart") */
void names_put_label(FILE *to, const struct label *label)
{
	fputs(label->name, to);
	if (label->title != NULL)
		fprintf(to, " (\"%s\")", label->title);
}

/* One of the words is `was`, which begins what an entry replaces. */
static bool has_was(const char *words)
{
	for (const char *at = words; (at = strstr(at, "was")) != NULL; at += 3)
		if ((at == words || at[-1] == ' ') && (at[3] == 0 || at[3] == ' '))
			return true;
	return false;
}

/*
 * Words that could be read as something else where a value stands: a number, bytes, a comment, or two
 * things. A list can have the words 1 and 4 for the values 0 and 2.
 */
bool names_needs_quotes(const char *words)
{
	static const char hex[] = "0123456789abcdefABCDEF ";
	const bool digit = words[0] >= '0' && words[0] <= '9';
	return digit || words[strspn(words, hex)] == 0 || words[strcspn(words, "#=:'")] != 0 ||
	       has_was(words);
}

/* Bytes in their order, each apart. */
static void put_apart(FILE *to, const uint8_t *bytes, uint32_t count)
{
	for (uint32_t i = 0; i < count; i++)
		fprintf(to, "%s%02X", i == 0 ? "" : " ", (unsigned)bytes[i]);
}

/* 01 Enabled */
void names_put_value(FILE *to, const struct label *label, const uint8_t *bytes)
{
	const char *words = names_words(label, bytes);
	put_apart(to, bytes, label->length);
	if (words != NULL)
		fprintf(to, names_needs_quotes(words) ? " \"%s\"" : " %s", words);
}

/* What was passed over. */
void names_put_passed(FILE *to, const char *file, const struct names *names)
{
	if (names->passed == 0)
		return;
	put_name(to, file);
	fprintf(to, ": %zu %s passed over, the first at line %zu\n", names->passed,
		names->passed == 1 ? "part of it was" : "parts of it were", names->passed_line);
}

/* Why a file is refused. */
void names_put_problem(FILE *to, const char *file, const struct names_problem *why)
{
	put_name(to, file);
	if (why->line != 0)
		fprintf(to, ": line %zu", why->line);
	fprintf(to, ": %s\n", why->text);
}

/* ---- a text ---- */

/* Eight bytes in hex, and as text where they are plain. */
static void put_eight(FILE *to, const char *name, const uint8_t *eight)
{
	bool plain = true;
	fprintf(to, "%s ", name);
	for (size_t i = 0; i < 8; i++) {
		fprintf(to, "%02X", (unsigned)eight[i]);
		plain = plain && eight[i] > 32 && eight[i] < 127 && eight[i] != '"';
	}
	if (plain)
		fprintf(to, " \"%.8s\"", (const char *)eight);
	fputc('\n', to);
}

/* A choice of a setting. */
static void put_choice(FILE *to, const struct label *label, const struct choice *choice)
{
	uint8_t bytes[8] = { 0 };
	if (label->length > 8 || !names_number(label, choice->value, bytes))
		return;
	fputs("\tchoice ", to);
	put_apart(to, bytes, label->length);
	fprintf(to, " \"%s\"\n", choice->words);
}

/* The text that names_text.c reads. Choices that the setting can't have are left out. */
void names_put_text(FILE *to, const struct names *names, const struct names_for *image)
{
	put_eight(to, "identity", image->identity);
	fprintf(to, "revision 0x%08" PRIX64 "\n", image->revision);
	if (image->extended != 0)
		fprintf(to, "extended 0x%04" PRIX64 "\n", image->extended);
	put_eight(to, "find", image->mark);
	for (size_t i = 0; i < names->count; i++) {
		const struct label *label = &names->label[i];
		fprintf(to, "0x%04" PRIX32 " %" PRIu32 " %s", label->offset, label->length, label->name);
		fprintf(to, label->title == NULL ? "\n" : " \"%s\"\n", label->title);
		if (label->given != NULL) {
			fputs("\tdefault ", to);
			put_apart(to, label->given, label->length);
			fputc('\n', to);
		}
		for (size_t j = 0; j < label->choices; j++)
			put_choice(to, label, &label->choice[j]);
	}
}
