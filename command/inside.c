/*
 * read --modules and read --words: a line for each, written as it is made, until one can't be written.
 * An image can have millions of words.
 */
#include "inside.h"

#include <inttypes.h>
#include <stdio.h>

#include "json.h"
#include "letters.h"
#include "messages.h"
#include "module_names.h"
#include "show.h"
#include "signs.h"

/* A module's own bytes follow the four of its section's header. */
#define SECTION_HEADER 4

/* How many of the words are relocation words: what base word, patch words and image bases leave. */
static uint64_t count_relocations(const struct contents *contents, const uint8_t *reading)
{
	return count_moved(contents) - 1 - pajurenda_field(reading, PAJURENDA_READ_COUNT) -
	       count_modules(contents);
}

/* The entry of the patch table behind a patch word: the n entries of four bytes end at E. */
static uint64_t patch_entry(const struct contents *contents, const uint8_t *reading, uint64_t index)
{
	const uint64_t left = pajurenda_field(reading, PAJURENDA_READ_COUNT) - index;
	return number_at(contents->image, pajurenda_field(reading, PAJURENDA_READ_END) - 4 * left, 4);
}

/* How long a module is. */
static uint64_t length_of_module(const struct module *module)
{
	return module->end - module->section - SECTION_HEADER;
}

/* ---- in lines ---- */

/* How many modules and words there are, in the lines of `read`. */
void show_counts(const struct contents *contents, const uint8_t *reading)
{
	printf("modules %" PRIu64 "\n", count_modules(contents));
	printf("words %" PRIu64 " (base word 1, patch words %" PRIu64 ", image bases %" PRIu64
	       ", relocation words %" PRIu64 ")\n", count_moved(contents),
	       pajurenda_field(reading, PAJURENDA_READ_COUNT), count_modules(contents),
	       count_relocations(contents, reading));
}

/* One module; its image base has the digits of its width. */
static void show_module(const struct contents *contents, uint64_t number)
{
	const struct module *module = &contents->modules[number];
	const struct word base = word_at(contents, module->base);
	char name[MODULE_NAME_BYTES];
	printf("module %" PRIu64 " file ", number);
	show_guid(stdout, guid_of(contents, number));
	if (name_module(contents, number, name)) {
		fputs(" name \"", stdout);
		put_name(stdout, name);
		putchar('"');
	}
	printf(" section %" PRIu64 " kind %s place %" PRIu64 " length %" PRIu64, module->section,
	       kind_of(contents, number), module->section + SECTION_HEADER, length_of_module(module));
	printf(" image base 0x%0*" PRIX64 " relocation words %" PRIu64 "\n", (int)(2 * base.width),
	       base.value, module->words);
}

/* Every module in file order. */
void show_modules(const struct contents *contents)
{
	for (uint64_t i = 0; i < count_modules(contents) && ferror(stdout) == 0; i++)
		show_module(contents, i);
}

/* One word: where it comes from, its place, its width and what stands there. */
static void show_word(const struct contents *contents, const uint8_t *reading, const struct word *word)
{
	switch (word->room) {
	case BASE_WORD: fputs("base word", stdout); break;
	case PATCH_WORD:
		printf("patch word %" PRIu64 " entry 0x%08" PRIX64, word->index,
		       patch_entry(contents, reading, word->index));
		break;
	case IMAGE_BASE: printf("module %" PRIu64 " image base", word->module); break;
	default: printf("module %" PRIu64 " relocation word %" PRIu64, word->module, word->index);
	}
	printf(" at %" PRIu64 " width %" PRIu64 " is 0x%0*" PRIX64 "\n", word->at, word->width,
	       (int)(2 * word->width), word->value);
}

/* Every word in the order of the move. */
void show_words(const struct contents *contents, const uint8_t *reading)
{
	for (uint64_t i = 0; i < count_entries(contents) && ferror(stdout) == 0; i++) {
		if (!is_word(contents, i))
			continue;
		const struct word word = word_at(contents, i);
		show_word(contents, reading, &word);
	}
}

/* ---- for a program ---- */

void write_counts(const struct contents *contents, const uint8_t *reading)
{
	json_number("modules", count_modules(contents));
	json_number("words", count_moved(contents));
	json_number("relocation_words", count_relocations(contents, reading));
}

/* The name that a module goes by; null where its file has none. */
void json_module_name(const struct contents *contents, uint64_t module)
{
	char name[MODULE_NAME_BYTES];
	if (name_module(contents, module, name))
		put_json_text(stdout, name);
	else
		fputs("null", stdout);
}

static void write_module(const struct contents *contents, uint64_t number)
{
	const struct module *module = &contents->modules[number];
	const struct word base = word_at(contents, module->base);
	printf("%s\n    {\"index\": %" PRIu64 ", \"name\": ", number == 0 ? "" : ",", number);
	json_module_name(contents, number);
	fputs(", \"file\": \"", stdout);
	show_guid(stdout, guid_of(contents, number));
	printf("\", \"file_place\": %" PRIu64 ", \"section\": %" PRIu64 ", \"kind\": \"%s\"", module->file,
	       module->section, kind_of(contents, number));
	printf(", \"place\": %" PRIu64 ", \"length\": %" PRIu64 ", \"image_base\": \"0x%0*" PRIX64
	       "\", \"relocation_words\": %" PRIu64 "}", module->section + SECTION_HEADER,
	       length_of_module(module), (int)(2 * base.width), base.value, module->words);
}

/* Every module again. */
void write_modules(const struct contents *contents)
{
	const uint64_t count = count_modules(contents);
	fputs(",\n  \"module_list\": [", stdout);
	for (uint64_t i = 0; i < count && ferror(stdout) == 0; i++)
		write_module(contents, i);
	printf("%s]", count == 0 ? "" : "\n  ");
}

/* A word's place, width and value, the last members of its object. */
static void write_place(const struct word *word)
{
	printf("\"place\": %" PRIu64 ", \"width\": %" PRIu64 ", \"value\": \"0x%0*" PRIX64 "\"}", word->at,
	       word->width, (int)(2 * word->width), word->value);
}

/* A word of a module: an image base has no index. */
static void write_inner_word(const struct word *word, const char *before)
{
	printf("%s\n    {\"module\": %" PRIu64 ", \"kind\": \"%s\", \"index\": ", before, word->module,
	       word->room == IMAGE_BASE ? "image base" : "relocation word");
	if (word->room == IMAGE_BASE)
		fputs("null, ", stdout);
	else
		printf("%" PRIu64 ", ", word->index);
	write_place(word);
}

/* The modules' words in their order, from the entry after the patch words on. */
static void write_inner_words(const struct contents *contents, uint64_t from)
{
	const char *before = "";
	fputs(",\n  \"module_words\": [", stdout);
	for (uint64_t i = from; i < count_entries(contents) && ferror(stdout) == 0; i++) {
		if (!is_word(contents, i))
			continue;
		const struct word word = word_at(contents, i);
		write_inner_word(&word, before);
		before = ",";
	}
	printf("%s]", *before == 0 ? "" : "\n  ");
}

/* The words again: the base word, the patch words, those of the modules. */
void write_words(const struct contents *contents, const uint8_t *reading)
{
	const uint64_t count = pajurenda_field(reading, PAJURENDA_READ_COUNT);
	struct word word = word_at(contents, 0);
	fputs(",\n  \"base_word\": {", stdout);
	write_place(&word);
	fputs(",\n  \"patch_words\": [", stdout);
	for (uint64_t i = 0; i < count; i++) {
		word = word_at(contents, 1 + i);
		printf("%s\n    {\"index\": %" PRIu64, i == 0 ? "" : ",", i);
		printf(", \"entry\": \"0x%08" PRIX64 "\", ", patch_entry(contents, reading, i));
		write_place(&word);
	}
	printf("%s]", count == 0 ? "" : "\n  ");
	write_inner_words(contents, 1 + count);
}
