/* The second reader's modules and words, told in the one list that the header has. */
#include "contents.h"

#include <stdbool.h>
#include <stdlib.h>

#include "fields.h"
#include "../second/second.h"

#define FIELDS(list) (sizeof(list) / sizeof((list)[0]))

/* The list being written; nothing is where it is NULL, and entries are counted alone. */
struct writer {
	uint8_t *list;
	uint64_t entries;
};

/* One more entry. */
static void add(struct writer *to, unsigned code, uint64_t place)
{
	if (to->list != NULL)
		put_number(to->list, (size_t)(4 * to->entries), 4, place + code * UINT64_C(16777216));
	to->entries++;
}

/* A word of a module: its image base, or a relocation word. */
static void add_word(struct writer *to, const struct second_word *word, bool base)
{
	if (base)
		add(to, word->width == 4 ? PAJURENDA_CONTENT_IMAGE_BASE_4 : PAJURENDA_CONTENT_IMAGE_BASE_8, word->place);
	else
		add(to, word->width == 4 ? PAJURENDA_CONTENT_RELOCATION_4 : PAJURENDA_CONTENT_RELOCATION_8, word->place);
}

/* All of it in order: the base word and n patch words, then each module with its words. */
static void add_all(struct writer *to, const struct second_word *word, uint64_t n,
		    const struct second_module *module, uint64_t modules)
{
	add(to, PAJURENDA_CONTENT_BASE_WORD, word->place);
	for (uint64_t i = 0; i < n; i++)
		add(to, PAJURENDA_CONTENT_PATCH_WORD, (++word)->place);
	for (uint64_t i = 0; i < modules; i++) {
		add(to, PAJURENDA_CONTENT_FILE, module[i].file);
		add(to, PAJURENDA_CONTENT_MODULE, module[i].section);
		for (uint64_t k = 0; k <= module[i].words; k++)
			add_word(to, ++word, k == 0);
	}
}

/* The list into as many bytes as it needs, from the second reader's own two. */
static void write_list(const uint8_t *image, size_t length, uint8_t *list, const uint64_t *fields, uint64_t n)
{
	struct second_module *modules = calloc((size_t)fields[2] + 1, sizeof *modules);
	struct second_word *words = calloc((size_t)fields[3] + 1, sizeof *words);
	struct writer to = { .list = list };
	if (modules == NULL || words == NULL)
		abort();
	second_modules(image, length, modules, fields[2]);
	second_words(image, length, words, fields[3]);
	add_all(&to, words, n, modules, fields[2]);
	free(modules);
	free(words);
}

uint32_t model_contents(const uint8_t *image, size_t image_length, uint8_t *list, size_t list_length,
			uint8_t *answer)
{
	const struct second_contents r = second_contents(image, image_length);
	uint64_t fields[] = { r.number, r.index, r.modules, r.words, r.words + 2 * r.modules };
	if (r.number == PAJURENDA_ACCEPTED && list_length / 4 < fields[4])
		fields[0] = PAJURENDA_ROOM;
	if (fields[0] == PAJURENDA_ACCEPTED)
		write_list(image, image_length, list, fields, second_read(image, image_length).n);
	put_fields(answer, fields, FIELDS(fields));
	return (uint32_t)fields[0];
}
