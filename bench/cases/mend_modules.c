/* Mend cases: images with modules; strays in their words, image bases among them, beside these, in headers and at the free end. */
#include "audit_cases.h"
#include "module_cases.h"

#include <string.h>

/* A volume as the vendor's, its words listed, and its move. */
static void ship_several(unsigned k, uint64_t base)
{
	several(k);
	list_words();
	ship_built(base);
}

/* Strays in the first and the last byte of each word and beside them, all words together, a setting among them. */
static void mend_in_words(unsigned k)
{
	ship_several(k, random_base());
	for (uint64_t i = 1; i < shown; i++) {
		turn_byte(shown_place[i], 0x01);
		turn_byte(shown_place[i] + shown_width[i] - 1, 0x80);
	}
	turn_byte(now.c + 33, 0x18);
	put_back(turned() - 1, 20);
	put_back_exact();
}

/* Words left where they were, all of them, while the base word moved; the image bases alone. */
static void mend_left(unsigned k)
{
	ship_several(k, random_base());
	for (uint64_t i = 1; i < shown; i++)
		memcpy(sheet + shown_place[i], image + shown_place[i], shown_width[i]);
	show_mend(&(struct mending){ .len = now.length, .other = now.length, .list = 8 * shown, .settings = ANY });
	audit(0, 0);
}

/* The vendor's modules decide, whatever the shipped file says in their places. */
static void mend_heads(unsigned k)
{
	ship_several(k, random_base());
	for (unsigned i = 0; i < inner_count; i++) {
		const struct module *m = &inner[i].m;
		turn_byte(inner[i].at, 0x06);
		if (m->blocks_size != 0) {
			turn_byte(inner[i].at + m->blocks + 4, 0x0C);
			turn_byte(inner[i].at + m->blocks + 9, 0x70);
		}
	}
	turn_byte(now.length - 1, 0x3C);
	put_back_exact();
}

/* One byte of one word after the other. */
static void mend_each(unsigned k)
{
	several(k);
	list_words();
	for (uint64_t i = 1; i < shown && i < 8; i++) {
		ship_several(k, random_base());
		turn_byte(shown_place[i] + i % shown_width[i], 0x24);
		put_back(1 + i % 2, 0);
	}
}

/* The mendings of #107's images. */
void mend_modules(unsigned k)
{
	mend_in_words(k);
	mend_left(k);
	mend_heads(k);
	mend_each(k);
}
