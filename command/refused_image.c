/* Refusals 1 to 11 and 25 to 28 in words: what stands in the image where the rule looks. */
#include <inttypes.h>
#include <stdio.h>

#include "components.h"
#include "letters.h"
#include "messages.h"
#include "modules.h"
#include "pajurenda.h"
#include "refusals.h"
#include "refused_entry.h"
#include "show.h"

/* 1: how long the file is. */
static void say_one(const struct letters *w, uint64_t index)
{
	(void)index;
	fputs("the file has ", saying());
	say_length(w->image);
}

/* The 16-bit words of the volume's header added up, modulo 65,536. */
static unsigned sum_of_words(const struct letters *w)
{
	unsigned sum = 0;
	for (uint64_t at = 0; at < w->h; at += 2)
		sum += (unsigned)number_at(w->image, at, 2);
	return sum & 0xFFFF;
}

/* 2: the mark, the lengths, the sum, the extended header. */
static void say_volume(const struct letters *w, uint64_t index)
{
	(void)index;
	fputs("mark ", saying());
	say_bytes(w->image, 40, 4);
	say_letter(", h", w->h);
	say_letter(", V", w->V);
	if (w->h % 2 == 0 && has_bytes(w->image, 0, w->h))
		fprintf(saying(), ", sum 0x%04X", sum_of_words(w));
	say_letter(", x", w->x);
	if (w->x != 0 && has_bytes(w->image, w->x + 16, 4))
		say_letter(", e", w->e);
	fputs(", the file has ", saying());
	say_length(w->image);
}

/* 3: where the file is to stand, its name, attributes, sum and size. */
static void say_file(const struct letters *w, uint64_t index)
{
	(void)index;
	say_letter("f", w->f);
	say_letter(", V", w->V);
	if (!has_bytes(w->image, w->f, 24)) {
		fputs(", no 24 bytes in the file there", saying());
		return;
	}
	fputs(", name ", saying());
	show_guid(saying(), w->image->at + w->f);
	fprintf(saying(), ", attributes 0x%02" PRIX64, number_at(w->image, w->f + 19, 1));
	fprintf(saying(), ", sum 0x%02X", sum_of_file(w->image, w->f));
	say_letter(", s", w->s);
}

/* 4: the section's type and size, and the revision where it decides. */
static void say_section(const struct letters *w, uint64_t index)
{
	(void)index;
	fprintf(saying(), "type 0x%02" PRIX64, number_at(w->image, w->f + 27, 1));
	say_letter(", size", w->section);
	say_letter(", s", w->s);
	if (w->section >= 64 && w->section < 76 && has_bytes(w->image, w->H + 11, 1))
		say_letter(", header revision", number_at(w->image, w->H + 11, 1));
}

/* 5: the header's mark, revision and length. */
static void say_header(const struct letters *w, uint64_t index)
{
	(void)index;
	fputs("mark ", saying());
	say_bytes(w->image, w->H, 4);
	say_letter(" at H", w->H);
	say_letter(", revision", number_at(w->image, w->H + 11, 1));
	say_letter(", L", w->L);
	say_letter(", section size", w->section);
}

/* 6: both lengths; the rule needs no other words. */
static void say_size(const struct letters *w, uint64_t index)
{
	(void)index;
	fprintf(saying(), "header says %" PRIu64 " bytes, the file has %zu",
		number_at(w->image, w->H + 24, 4), w->image->length);
}

/* 7: the component's number. */
static void say_component(const struct letters *w, uint64_t index)
{
	const uint64_t component = number_at(w->image, w->H + 34, 2) >> 12;
	(void)index;
	say_letter("it is", component);
	fputs(component == 8 ? ", OEM" : "", saying());
}

/* 8: the base and the length it is for. */
static void say_base(const struct letters *w, uint64_t index)
{
	(void)index;
	fprintf(saying(), "0x%08" PRIX64 " for %zu bytes", number_at(w->image, w->H + 28, 4),
		w->image->length);
}

/* Another table stands where the patch table is to stand, by a mark of FSP's kind. */
static bool is_other_table(const struct letters *w)
{
	return stands(w->image, w->p, "FSP") && !stands(w->image, w->p, "FSPP") && has_bytes(w->image, w->p, 8) &&
	       is_printable(w->image->at + w->p, 4);
}

/* That table, and where a patch table stands after it. */
static void say_other_table(const struct letters *w)
{
	const uint64_t end = w->f + 24 + w->section;
	uint64_t at = w->p + 4;
	fputs(": another table", saying());
	while (at < end && has_bytes(w->image, at, 4) && !stands(w->image, at, "FSPP"))
		at += 4;
	if (at < end && stands(w->image, at, "FSPP"))
		say_letter(" stands before FSPP at", at);
	else
		fputs(" stands there, and no FSPP after it", saying());
}

/* 9: the extended header where one stands, then the table, and where the section ends. */
static void say_table(const struct letters *w, uint64_t index)
{
	(void)index;
	if (stands(w->image, w->g, "FSPE")) {
		say_letter("FSPE at", w->g);
		say_letter(" of length", number_at(w->image, w->g + 4, 4));
		fputs(", ", saying());
	}
	fputs("mark ", saying());
	say_bytes(w->image, w->p, 4);
	say_letter(" at p", w->p);
	if (is_other_table(w)) {
		say_other_table(w);
	} else if (has_bytes(w->image, w->p, 12)) {
		say_letter(", revision", number_at(w->image, w->p + 6, 1));
		say_letter(", n", w->n);
		say_letter(", E", w->E);
	}
	say_letter(", the section ends at", w->f + 24 + w->section);
}

/* 10: the region's place and size, and what it must keep between. */
static void say_config(const struct letters *w, uint64_t index)
{
	(void)index;
	say_letter("c", w->c);
	say_letter(", z", w->z);
	say_letter(", E", w->E);
	fputs(", the file has ", saying());
	say_length(w->image);
}

/* 11: the region's mark and the component's letter. */
static void say_upd(const struct letters *w, uint64_t index)
{
	const uint64_t component = number_at(w->image, w->H + 34, 2) >> 12;
	(void)index;
	say_bytes(w->image, w->c + 6, 2);
	say_letter(" at", w->c + 6);
	fprintf(saying(), ", component %c", component <= 4 ? "?TMSI"[component] : '?');
}

/* 25, 26, 27: the file, section or module, as far as it can be found. */
static void say_module(const struct letters *w, uint64_t index)
{
	(void)index;
	say_module_values(w, PAJURENDA_MODULE);
}

static void say_word(const struct letters *w, uint64_t index)
{
	(void)index;
	say_module_values(w, PAJURENDA_WORD);
}

static void say_relocation(const struct letters *w, uint64_t index)
{
	(void)index;
	say_module_values(w, PAJURENDA_RELOCATION);
}

/* 28: what makes it edition 1. */
static void say_read_only(const struct letters *w, uint64_t index)
{
	(void)index;
	say_letter("header revision", number_at(w->image, w->H + 11, 1));
	say_letter(", L", w->L);
}

/* The values of each of an image's own rules, and of 28. */
static void (*const say_values[])(const struct letters *w, uint64_t index) = {
	[PAJURENDA_LENGTH] = say_one,       [PAJURENDA_VOLUME] = say_volume,
	[PAJURENDA_FILE] = say_file,        [PAJURENDA_SECTION] = say_section,
	[PAJURENDA_HEADER] = say_header,    [PAJURENDA_SIZE] = say_size,
	[PAJURENDA_COMPONENT] = say_component, [PAJURENDA_BASE] = say_base,
	[PAJURENDA_TABLE] = say_table,      [PAJURENDA_CONFIG] = say_config,
	[PAJURENDA_UPD] = say_upd,          [PAJURENDA_TYPE] = say_type,
	[PAJURENDA_RESERVED] = say_reserved, [PAJURENDA_PLACE] = say_place,
	[PAJURENDA_OVERLAP] = say_overlap,  [PAJURENDA_MODULE] = say_module,
	[PAJURENDA_WORD] = say_word,        [PAJURENDA_RELOCATION] = say_relocation,
	[PAJURENDA_READ_ONLY] = say_read_only,
};

#define NUMBERS (sizeof say_values / sizeof say_values[0])

/* An image's own refusal. */
enum status refuse_image(uint32_t number, uint64_t index, const struct named *image)
{
	const struct letters w = letters_of(&image->bytes);
	if (number >= NUMBERS || say_values[number] == NULL)
		return fail_answer();
	begin_refusal(number, image->name);
	note_index(index);
	if (number != PAJURENDA_SIZE)
		say_rule(number);
	say_values[number](&w, index);
	if (number == PAJURENDA_VOLUME || number == PAJURENDA_SIZE)
		say_components(&image->bytes);
	return end_refusal();
}
