#include "second.h"

#include <stdbool.h>
#include <stddef.h>
#include <stdlib.h>
#include <string.h>

#include "modules.h"
#include "numbers.h"
#include "owners.h"
#include "sheet.h"

#define TWO32 UINT64_C(4294967296)
#define STRAY UINT64_C(16777216)

/* The letters of document 01, filled in rule by rule. */
struct letters {
	const uint8_t *image;
	uint64_t length;
	uint64_t h, V, x, e;
	uint64_t f, s, section;
	uint64_t H, L;
	bool older;	/* #109: an edition 1 header stands at H */
	uint64_t extended;
	uint64_t component, base;
	uint64_t p, n, E;
	uint64_t c, z;
	uint64_t index;
	struct modules modules;
};

/* Refusal 3: the header file's GUID as stored. */
static const uint8_t header_file[16] = {
	0xBE, 0x40, 0x27, 0x91, 0x84, 0x22, 0x34, 0x47,
	0xB9, 0x71, 0x84, 0xB0, 0x27, 0x35, 0x3F, 0x0C,
};

/* Refusal 11: the letters of components 1..4. */
static const uint8_t component_letter[4] = { 'T', 'M', 'S', 'I' };

/* A number of the image. */
static uint64_t number_at(const struct letters *w, uint64_t at, uint64_t width)
{
	return little(w->image, at, width);
}

/* Refusals 2, 5 and 9: four characters stand at a position. */
static bool stands(const struct letters *w, uint64_t at, const char *four)
{
	for (uint64_t i = 0; i < 4; i++)
		if (w->image[at + i] != (uint8_t)four[i])
			return false;
	return true;
}

/* Sources: rounding up to a multiple of 8. */
static uint64_t round8(uint64_t value)
{
	return (value + 7) / 8 * 8;
}

/* Sources: rounding up to a multiple of 4. */
static uint64_t round4(uint64_t value)
{
	return (value + 3) / 4 * 4;
}

/* Refusal 1. */
static bool refuse_length(struct letters *w)
{
	return w->length < 72 || w->length > 16777216;
}

/* Refusal 2: the 16-bit words of bytes 0..h-1, modulo 65,536. */
static uint64_t volume_sum(const struct letters *w)
{
	uint64_t sum = 0;
	for (uint64_t i = 0; i < w->h; i += 2)
		sum += number_at(w, i, 2);
	return sum % 65536;
}

/* Refusal 2: where there is an extended header, it lies between the header and V. */
static bool refuse_extension(struct letters *w)
{
	if (w->x == 0)
		return false;
	if (w->x < w->h || w->x + 20 > w->V)
		return true;
	w->e = number_at(w, w->x + 16, 4);
	return w->e < 20 || w->x + w->e > w->V;
}

/* Refusal 2. */
static bool refuse_volume(struct letters *w)
{
	if (!stands(w, 40, "_FVH"))
		return true;
	w->h = number_at(w, 48, 2);
	w->V = number_at(w, 32, 8);
	if (!(72 <= w->h && w->h <= w->V && w->V <= w->length))
		return true;
	if (w->h % 2 != 0 || volume_sum(w) != 0)
		return true;
	w->x = number_at(w, 52, 2);
	return refuse_extension(w);
}

/* Refusal 3: the header bytes f..f+23, those at f+17 and f+23 taken as 0, modulo 256. */
static uint64_t file_sum(const struct letters *w)
{
	uint64_t sum = 0;
	for (uint64_t i = 0; i < 24; i++)
		if (i != 17 && i != 23)
			sum += w->image[w->f + i];
	return sum % 256;
}

/* Refusal 3: the name at f is the header file's GUID. */
static bool named_header_file(const struct letters *w)
{
	for (uint64_t i = 0; i < 16; i++)
		if (w->image[w->f + i] != header_file[i])
			return false;
	return true;
}

/* Refusal 3. */
static bool refuse_file(struct letters *w)
{
	w->f = w->x == 0 ? round8(w->h) : round8(w->x + w->e);
	if (w->f + 24 > w->V || !named_header_file(w))
		return true;
	if (w->image[w->f + 19] % 2 == 1 || file_sum(w) != 0)
		return true;
	w->s = number_at(w, w->f + 20, 3);
	return w->s < 28 || w->f + w->s > w->V;
}

/* Refusals 4 and 5: the revision byte at H+11, for a section of at least 64 bytes. */
static uint64_t header_revision(const struct letters *w)
{
	return w->image[w->f + 39];
}

/* Refusal 4, #109: 76 bytes at least, 64 where the revision byte is 1; it is looked at only where 64 bytes are there. */
static bool refuse_section(struct letters *w)
{
	w->section = number_at(w, w->f + 24, 3);
	if (w->image[w->f + 27] != 0x19 || w->section < 64 || w->section > w->s - 24)
		return true;
	return w->section < 76 && header_revision(w) != 1;
}

/* Refusal 5, #102: from revision 6 on the header holds the extended number; below, no byte at H+76 is looked at. */
static bool refuse_extended_number(struct letters *w)
{
	if (header_revision(w) < 6)
		return false;
	if (w->L < 80)
		return true;
	w->extended = number_at(w, w->H + 76, 2);
	return false;
}

/* Refusal 5: the rule for edition 2. */
static bool refuse_newer(struct letters *w)
{
	if (header_revision(w) < 3 || w->L < 72 || w->L > 256)
		return true;
	return refuse_extended_number(w);
}

/* Refusal 5, #109: the rule for edition 1, two lengths and none between; c and z stand as now but nobody judges them. */
static bool refuse_older(struct letters *w)
{
	if (w->L != 60 && w->L != 64)
		return true;
	w->older = true;
	w->c = number_at(w, w->H + 36, 4);
	w->z = number_at(w, w->H + 40, 4);
	return false;
}

/* Refusal 5. */
static bool refuse_header(struct letters *w)
{
	w->H = w->f + 28;
	w->L = number_at(w, w->H + 4, 4);
	if (!stands(w, w->H, "FSPH") || 4 + w->L > w->section)
		return true;
	return header_revision(w) == 1 ? refuse_older(w) : refuse_newer(w);
}

/* Refusal 6. */
static bool refuse_size(struct letters *w)
{
	return number_at(w, w->H + 24, 4) != w->length;
}

/* Refusal 7. */
static bool refuse_component(struct letters *w)
{
	w->component = number_at(w, w->H + 34, 2) / 4096;
	return w->component < 1 || w->component > 4;
}

/* Refusal 8. */
static bool refuse_base(struct letters *w)
{
	w->base = number_at(w, w->H + 28, 4);
	return !legal_base(w->base, w->length);
}

/* Refusal 9, "Patch table": p = round4(H+L), moved past FSPE; true where FSPE is at fault. */
static bool refuse_extended(struct letters *w, uint64_t end)
{
	w->p = round4(w->H + w->L);
	if (w->p + 4 > end)
		return true;
	if (!stands(w, w->p, "FSPE"))
		return false;
	if (w->p + 8 > end)
		return true;
	const uint64_t extended = number_at(w, w->p + 4, 4);
	if (extended < 24 || w->p + extended > end)
		return true;
	w->p = round4(w->p + extended);
	return false;
}

/* Refusal 9, "Patch table": all of it lies within the section. */
static bool refuse_table(struct letters *w)
{
	const uint64_t end = w->f + 24 + w->section;
	if (refuse_extended(w, end) || w->p + 12 > end)
		return true;
	if (!stands(w, w->p, "FSPP") || w->image[w->p + 6] != 1)
		return true;
	w->n = number_at(w, w->p + 8, 4);
	w->E = w->p + 12 + 4 * w->n;
	return w->n > 1024 || w->E > end;
}

/* Refusal 10. */
static bool refuse_config(struct letters *w)
{
	w->c = number_at(w, w->H + 36, 4);
	w->z = number_at(w, w->H + 40, 4);
	return w->z < 32 || w->z > 65536 || w->c < w->E || w->c + w->z > w->length;
}

/* Refusal 11. */
static bool refuse_upd(struct letters *w)
{
	return w->image[w->c + 6] != '_' ||
	       w->image[w->c + 7] != component_letter[w->component - 1];
}

/* "Patch table": entries of 4 bytes follow from p+12. */
static uint64_t entry_at(const struct letters *w, uint64_t i)
{
	return number_at(w, w->p + 12 + 4 * i, 4);
}

/* "Where an entry points": false where that is below 0. */
static bool points(const struct letters *w, uint64_t entry, uint64_t *place)
{
	const uint64_t low = entry % 16777216;
	if (entry / UINT64_C(2147483648) == 0) {
		*place = low;
		return true;
	}
	const uint64_t back = 16777216 - low;
	if (back > w->length)
		return false;
	*place = w->length - back;
	return true;
}

/* Refusal 12. */
static bool refuse_type(struct letters *w)
{
	for (uint64_t i = 0; i < w->n; i++) {
		const uint64_t type = entry_at(w, i) / 16777216 % 16;
		if (type != 0 && type != 15) {
			w->index = i;
			return true;
		}
	}
	return false;
}

/* Refusal 22, #104: bits 30..28 repeat bit 31. */
static bool refuse_reserved(struct letters *w)
{
	for (uint64_t i = 0; i < w->n; i++) {
		const uint64_t top = entry_at(w, i) / UINT64_C(268435456);
		if (top != 0 && top != 15) {
			w->index = i;
			return true;
		}
	}
	return false;
}

/* Refusal 13: below 0, or four bytes do not fit. */
static bool refuse_place(struct letters *w)
{
	for (uint64_t i = 0; i < w->n; i++) {
		uint64_t place = 0;
		if (!points(w, entry_at(w, i), &place) || place + 4 > w->length) {
			w->index = i;
			return true;
		}
	}
	return false;
}

/* Refusal 14: four bytes at a place and the bytes from..to-1 have one in common. */
static bool meets(uint64_t place, uint64_t from, uint64_t to)
{
	return place < to && from < place + 4;
}

/* Refusal 14: one entry, all of them being inside the image by refusal 13. */
static bool entry_overlaps(const struct letters *w, uint64_t i)
{
	uint64_t place = 0, earlier = 0;
	(void)points(w, entry_at(w, i), &place);
	if (meets(place, 0, w->E) || meets(place, w->c, w->c + w->z))
		return true;
	for (uint64_t j = 0; j < i; j++) {
		(void)points(w, entry_at(w, j), &earlier);
		if (meets(place, earlier, earlier + 4))
			return true;
	}
	return false;
}

/* Refusal 14. */
static bool refuse_overlap(struct letters *w)
{
	for (uint64_t i = 0; i < w->n; i++) {
		if (entry_overlaps(w, i)) {
			w->index = i;
			return true;
		}
	}
	return false;
}

/* "Moving": the base word and each patch word lead the words of a move. */
static void list_words(const struct letters *w, struct modules *m)
{
	second_modules_word(m, w->H + 28, 4);
	for (uint64_t i = 0; i < w->n; i++) {
		uint64_t place = 0;
		(void)points(w, entry_at(w, i), &place);
		second_modules_word(m, place, 4);
	}
}

/* Refusal 25, #107: the walk begins with what has been found so far. */
static bool refuse_modules(struct letters *w)
{
	w->modules = (struct modules){
		.image = w->image,
		.length = w->length,
		.V = w->V,
		.f = w->f,
		.E = w->E,
		.c = w->c,
		.z = w->z,
	};
	list_words(w, &w->modules);
	return second_modules_refused(&w->modules);
}

/* Refusal 26, #107. */
static bool refuse_words(struct letters *w)
{
	return second_modules_overlap(&w->modules);
}

/* Refusal 27, #107. */
static bool refuse_relocations(struct letters *w)
{
	return second_modules_types(&w->modules);
}

/* #102: the identity of an image past refusal 5. */
static struct identity identity_of(const struct letters *w)
{
	return (struct identity){
		.image = number_at(w, w->H + 16, 8),
		.revision = number_at(w, w->H + 12, 4),
		.extended = w->extended,
	};
}

/* "An accepted reading gives". */
static struct second_reading accepted(const struct letters *w)
{
	const struct identity identity = identity_of(w);
	return (struct second_reading){
		.number = 0,
		.index = 0,
		.H = w->H,
		.component = w->component,
		.image_identity = identity.image,
		.revision = identity.revision,
		.base = w->base,
		.c = w->c,
		.z = w->z,
		.n = w->n,
		.E = w->E,
		.extended = identity.extended,
	};
}

/* The table's order, 22 after 12 and 25 to 27 last: a check is made only if all earlier ones passed; 0 where accepted. */
static const struct check {
	uint64_t number;
	bool (*refuse)(struct letters *);
} check[] = {
	{ 1, refuse_length }, { 2, refuse_volume }, { 3, refuse_file }, { 4, refuse_section },
	{ 5, refuse_header }, { 6, refuse_size }, { 7, refuse_component }, { 8, refuse_base },
	{ 9, refuse_table }, { 10, refuse_config }, { 11, refuse_upd }, { 12, refuse_type },
	{ 22, refuse_reserved }, { 13, refuse_place }, { 14, refuse_overlap },
	{ 25, refuse_modules }, { 26, refuse_words }, { 27, refuse_relocations },
};

/* #109: of an edition 1 image only 1 to 6 and 8 are judged; which edition it is shows at 5. */
static bool judged(const struct letters *w, uint64_t number)
{
	return !w->older || number <= 6 || number == 8;
}

/* Refusals of the image; 0 where it is accepted. */
static uint64_t judge(struct letters *w)
{
	for (size_t i = 0; i < sizeof check / sizeof check[0]; i++)
		if (judged(w, check[i].number) && check[i].refuse(w))
			return check[i].number;
	return 0;
}

/* #109: for those who would change an image or look for its words or settings: its refusals, then 28. */
static uint64_t judge_newer(struct letters *w)
{
	const uint64_t number = judge(w);
	if (number == 0 && w->older)
		return 28;
	return number;
}

/* "Reading an image". */
struct second_reading second_read(const uint8_t *image, uint64_t length)
{
	struct letters w = { .image = image, .length = length };
	struct second_reading reading = { .number = judge(&w) };

	if (reading.number != 0)
		reading.index = w.index;
	else
		reading = accepted(&w);
	second_modules_free(&w.modules);
	return reading;
}

/* #107, #109: an edition 1 image has no words to list. */
struct second_contents second_contents(const uint8_t *image, uint64_t length)
{
	struct letters w = { .image = image, .length = length };
	struct second_contents contents = { .number = judge_newer(&w), .index = w.index };

	if (contents.number == 0) {
		contents.modules = w.modules.count;
		contents.words = w.modules.words;
	}
	second_modules_free(&w.modules);
	return contents;
}

/* #107: the modules of an image, as many as there is room for. */
uint64_t second_modules(const uint8_t *image, uint64_t length,
			struct second_module *modules, uint64_t room)
{
	struct letters w = { .image = image, .length = length };
	const uint64_t count = judge_newer(&w) == 0 ? w.modules.count : 0;

	for (uint64_t i = 0; i < count && i < room; i++)
		modules[i] = w.modules.module[i].shown;
	second_modules_free(&w.modules);
	return count;
}

/* "Moving", #107: the words of a move, as many as there is room for. */
uint64_t second_words(const uint8_t *image, uint64_t length,
		      struct second_word *words, uint64_t room)
{
	struct letters w = { .image = image, .length = length };
	const uint64_t count = judge_newer(&w) == 0 ? w.modules.words : 0;

	for (uint64_t i = 0; i < count && i < room; i++)
		words[i] = w.modules.word[i];
	second_modules_free(&w.modules);
	return count;
}

/* "Moving", #107: new minus old, modulo 2^32 for a word of 4 bytes, modulo 2^64 for one of 8. */
static uint64_t difference(uint64_t new_base, uint64_t old_base, uint64_t width)
{
	if (width == 4)
		return (TWO32 + new_base - old_base) % TWO32;
	return new_base - old_base;
}

/* "Moving": the difference is added with wraparound to one word; what goes beyond its width is left out. */
static void move_word(uint8_t *image, const struct second_word *word, uint64_t by)
{
	const uint64_t value = little(image, word->place, word->width) + by;
	for (uint64_t i = 0; i < word->width; i++)
		image[word->place + i] = (uint8_t)(value >> (8 * i));
}

/* "Moving": every word of the list; no table or header that led to it has a byte of them. */
static void move_words(const struct letters *w, uint8_t *image, uint64_t new_base)
{
	for (uint64_t i = 0; i < w->modules.words; i++) {
		const struct second_word *word = &w->modules.word[i];
		move_word(image, word, difference(new_base, w->base, word->width));
	}
}

/* Refusal 16: each of the three parts. */
static bool refuse_identity(const struct letters *w, const struct sheet *s)
{
	const struct identity image = identity_of(w), other = second_sheet_identity(s);
	return other.image != image.image || other.revision != image.revision ||
	       other.extended != image.extended;
}

/* Refusal 17. */
static bool refuse_field(const struct letters *w, const struct sheet *s)
{
	for (uint64_t i = 0; i < s->m; i++) {
		const struct field field = second_sheet_field(s, i);
		if (field.offset < 32 || field.offset + field.length > w->z)
			return true;
	}
	return false;
}

/* #105, #106, #109: the image's refusals, 28, then 15, 23 (which needs z), 16, 17, 24, 18. */
static uint64_t judge_release(struct letters *w, struct sheet *s, const struct owners *o, uint64_t new_base)
{
	const uint64_t number = judge_newer(w);
	if (number != 0)
		return number;
	if (second_sheet_refused(s))
		return 15;
	if (second_owners_refused(o, w->z))
		return 23;
	if (refuse_identity(w, s))
		return 16;
	if (refuse_field(w, s))
		return 17;
	if (second_owners_outside(o, s))
		return 24;
	return legal_base(new_base, w->length) ? 0 : 18;
}

/* "The release sheet": the body of one entry goes into the region. */
static void set_field(const struct letters *w, uint8_t *image, const struct sheet *s, uint64_t i)
{
	const struct field field = second_sheet_field(s, i);
	for (uint64_t k = 0; k < field.length; k++)
		image[w->c + field.offset + k] = s->bytes[field.body + k];
}

/* #105: the sheet's bytes are set, then the image is moved; refused, no byte changes. */
struct second_released second_release(uint8_t *image, uint64_t length,
				      const uint8_t *sheet, uint64_t sheet_length, uint64_t new_base,
				      const uint8_t *owners, uint64_t owners_length, uint64_t owner)
{
	struct letters w = { .image = image, .length = length };
	struct sheet s = { .bytes = sheet, .length = sheet_length };
	const struct owners o = { .bytes = owners, .length = owners_length, .caller = owner };
	struct second_released released = { .number = judge_release(&w, &s, &o, new_base) };

	released.index = w.index;
	if (released.number == 0) {
		for (uint64_t i = 0; i < s.m; i++)
			set_field(&w, image, &s, i);
		move_words(&w, image, new_base);
		released.move = (int64_t)new_base - (int64_t)w.base;
	}
	second_modules_free(&w.modules);
	return released;
}

/* "One setting": the image's refusals, 28, then 17; the end is a whole number that is never cut down. */
struct second_part second_setting(const uint8_t *image, uint64_t length,
				  uint64_t offset, uint64_t size)
{
	struct letters w = { .image = image, .length = length };
	uint64_t number = judge_newer(&w);

	second_modules_free(&w.modules);
	if (number == 0 && (size == 0 || offset < 32 || offset > w.z || size > w.z - offset))
		number = 17;
	if (number != 0)
		return (struct second_part){ .number = number };
	return (struct second_part){ .position = w.c + offset, .length = size };
}

/* "The audit": the vendor image moved, in bytes of its own; #109: an edition 1 image has no word in the list and stays as it is. */
static uint8_t *moved_copy(const struct letters *w, uint64_t base)
{
	uint8_t *copy = malloc(w->length);
	if (copy == NULL)
		abort();
	memcpy(copy, w->image, w->length);
	move_words(w, copy, base);
	return copy;
}

/* "The audit": the number of bits that differ. */
static uint64_t ones(uint64_t byte)
{
	uint64_t count = 0;
	for (; byte != 0; byte /= 2)
		count += byte % 2;
	return count;
}

/* "The audit", #109: whose difference is a setting; none of an edition 1 image is. */
static bool is_setting(const struct letters *w, uint64_t at)
{
	return !w->older && at >= w->c + 32 && at < w->c + w->z;
}

/* "The audit": the counts of all differences; with a list, their entries too. */
static struct second_audited compare(const struct letters *w, const uint8_t *reference,
				     const uint8_t *shipped, uint32_t *places)
{
	struct second_audited a = { .number = 0 };
	for (uint64_t at = 0; at < w->length; at++) {
		const uint64_t turned = reference[at] ^ shipped[at];
		const bool setting = is_setting(w, at);
		if (turned == 0)
			continue;
		if (places != NULL)
			places[a.settings + a.strays] = (uint32_t)(setting ? at : at + STRAY);
		a.settings += setting ? 1 : 0;
		a.strays += setting ? 0 : 1;
		a.bits += setting ? ones(turned) : 0;
	}
	a.explained = a.strays == 0 ? 1 : 0;
	return a;
}

/* "The audit": against the vendor image moved to a legal base; 20 keeps base and counts. */
static struct second_audited audit_at(const struct letters *w, const uint8_t *shipped, uint64_t base,
				      uint32_t *places, uint64_t places_count)
{
	uint8_t *reference = moved_copy(w, base);
	struct second_audited a = compare(w, reference, shipped, NULL);
	if (a.settings + a.strays <= places_count) {
		a = compare(w, reference, shipped, places);
	} else {
		a.number = 20;
		a.explained = 0;
	}
	a.base = base;
	free(reference);
	return a;
}

/* "The audit": the vendor image's refusals, 19, 18, then 20. */
static struct second_audited judge_audit(struct letters *w, const uint8_t *shipped, uint64_t shipped_length,
					 uint32_t *places, uint64_t places_count)
{
	const uint64_t number = judge(w);

	if (number != 0)
		return (struct second_audited){ .number = number, .index = w->index };
	if (shipped_length != w->length)
		return (struct second_audited){ .number = 19 };
	const uint64_t base = little(shipped, w->H + 28, 4);
	if (!legal_base(base, w->length))
		return (struct second_audited){ .number = 18 };
	return audit_at(w, shipped, base, places, places_count);
}

/* "The audit". */
struct second_audited second_audit(const uint8_t *vendor, uint64_t vendor_length,
				   const uint8_t *shipped, uint64_t shipped_length,
				   uint32_t *places, uint64_t places_count)
{
	struct letters w = { .image = vendor, .length = vendor_length };
	const struct second_audited a = judge_audit(&w, shipped, shipped_length, places, places_count);

	second_modules_free(&w.modules);
	return a;
}
