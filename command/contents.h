/* What an accepted image has inside, by the library's list: its modules, the words that a move changes. */
#ifndef COMMAND_CONTENTS_H
#define COMMAND_CONTENTS_H

#include <stdbool.h>

#include "command.h"
#include "pajurenda.h"

/* What a byte of an image can belong to; the first four are the words that a move changes. */
enum room {
	BASE_WORD, PATCH_WORD, IMAGE_BASE, RELOCATION_WORD,
	TABLES, REGION_HEADER, SETTINGS, MODULE_BYTES, ELSEWHERE, IN_VOLUME, AFTER_VOLUME,
	FSP_HEADER /* of an edition 1 image, which has no tables that were judged */
};

/* No module's number. */
#define NO_MODULE UINT64_MAX

/* A word that a move changes, with what stands there. Patch words count in the table, relocation words
   in their module, both from 0; base word and image base have index 0. */
struct word {
	enum room room;
	uint64_t index;
	uint64_t module; /* whose it is; NO_MODULE of base word and patch words */
	uint64_t at, width, value;
};

/* A module: where the headers of its file and of its section stand, where the section ends; which entry
   of the list its image base is, and how many relocation words follow it there. */
struct module {
	uint64_t file, section, end;
	uint64_t base, words;
};

/* A word's place, and its entry in the list. */
struct spot {
	uint32_t at, entry;
};

/* The library's answer and list; the modules in file order, which is their order by position. */
struct contents {
	const struct bytes *image;
	uint8_t answer[PAJURENDA_CONTENTS_BYTES];
	uint8_t *list;
	struct module *modules;
	struct spot *spots; /* every word by position, once sort_words was called */
};

bool count_contents(const struct bytes *image, struct contents *contents);
enum status load_contents(const struct bytes *image, struct contents *contents);
enum status sort_words(struct contents *contents);
void free_contents(struct contents *contents);

uint64_t count_modules(const struct contents *contents);
uint64_t count_moved(const struct contents *contents);
uint64_t count_entries(const struct contents *contents);
bool is_word(const struct contents *contents, uint64_t entry);
struct word word_at(const struct contents *contents, uint64_t entry);
const char *kind_of(const struct contents *contents, uint64_t module);
const uint8_t *guid_of(const struct contents *contents, uint64_t module);

#endif
