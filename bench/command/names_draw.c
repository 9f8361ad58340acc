/*
 * Names drawn from a seed. The same names are written as a BSF, as its YAML form and as a text of our own, between blocks of other regions
 * that have the same names; each is read and must be what was drawn, and what is written of it must read back.
 */
#define _POSIX_C_SOURCE 200809L

#include "names_draw.h"

#include <inttypes.h>
#include <stdlib.h>
#include <string.h>

#define MOST_DRAWN 60
#define MOST_LENGTH 20
#define MOST_LISTED 4

/* A name as it was drawn, and its texts' room. */
struct drawn {
	struct label label;
	char name[64], title[40];
	uint8_t given[MOST_LENGTH];
	struct choice choice[MOST_LISTED];
	char words[MOST_LISTED][24];
};

static uint64_t state;

void start_draw(uint64_t seed)
{
	state = seed * 2 + 1;
}

/* A number below a bound. */
static uint64_t below(uint64_t bound)
{
	state ^= state >> 12;
	state ^= state << 25;
	state ^= state >> 27;
	return (state * UINT64_C(2685821657736338717) >> 16) % bound;
}

/* ---- files changed ---- */

/* A byte that means something to a reader of texts, or any. */
static uint8_t draw_byte(void)
{
	static const uint8_t marks[] = "\"'$&,=:;{}#/*\n\r\t -0x19fF\0\xC3\xE2\x80\xAE\xFF";
	return below(3) != 0 ? marks[below(sizeof marks)] : (uint8_t)below(256);
}

/* A stretch of the file moved over another. */
static void draw_move(uint8_t *bytes, size_t length)
{
	const size_t from = below(length), to = below(length);
	const size_t most = length - (from > to ? from : to);
	memmove(bytes + to, bytes + from, below(most + 1));
}

/* The file as it is, cut, with bytes changed and with stretches moved. */
uint8_t *draw_changed(const uint8_t *bytes, size_t length, size_t *drawn)
{
	*drawn = below(4) == 0 ? below(length + 1) : length;
	uint8_t *changed = malloc(*drawn == 0 ? 1 : *drawn);
	if (changed == NULL)
		exit(2);
	memcpy(changed, bytes, *drawn);
	for (uint64_t i = *drawn == 0 ? 0 : below(6); i > 0; i--)
		changed[below(*drawn)] = draw_byte();
	for (uint64_t i = *drawn == 0 ? 0 : below(3); i > 0; i--)
		draw_move(changed, *drawn);
	return changed;
}

/* ---- drawing names ---- */

/* Letters and blanks, begun and ended by a letter. */
static void draw_words(char *words, size_t room)
{
	static const char letters[] = "abcdefghijklmnopqrstuvwxyzABCDEFGHIJKLMNOPQRSTUVWXYZ0123456789 ()/.-+#'";
	const size_t length = 1 + below(room - 2);
	for (size_t i = 0; i < length; i++)
		words[i] = letters[below(i == 0 || i + 1 == length ? 62 : sizeof letters - 1)];
	words[length] = 0;
}

/* Up to four choices with values that the setting can have. */
static void draw_choices(struct drawn *d)
{
	d->label.choice = d->choice;
	d->label.choices = below(2) == 0 || d->label.length > 8 ? 0 : 1 + below(MOST_LISTED);
	for (size_t i = 0; i < d->label.choices; i++) {
		draw_words(d->words[i], sizeof d->words[i]);
		d->choice[i].value = d->label.length == 8 ? below(UINT64_MAX) : below((uint64_t)1 << (8 * d->label.length));
		d->choice[i].words = d->words[i];
	}
}

/* A name at an offset. */
static void draw_name(struct drawn *d, uint32_t offset, size_t number)
{
	static const char *const spaces[] = { "", "gTreatPkgTokenSpaceGuid_", "Own_" };
	*d = (struct drawn){ .label = { .offset = offset } };
	d->label.length = 1 + (uint32_t)below(below(2) == 0 ? 4 : MOST_LENGTH);
	snprintf(d->name, sizeof d->name, "%sSetting%zu", spaces[below(3)], number);
	d->label.name = d->name;
	draw_choices(d);
	if (d->label.choices > 0 || below(2) == 0) {
		draw_words(d->title, sizeof d->title);
		d->label.title = d->title;
	}
	for (uint32_t i = 0; i < d->label.length; i++)
		d->given[i] = below(3) == 0 ? 0 : (uint8_t)below(256);
	d->label.given = below(4) == 0 ? NULL : d->given;
}

/* Names one after another, with gaps or without. */
static size_t draw_names(struct drawn *drawn, uint32_t *size)
{
	const size_t count = below(MOST_DRAWN) + 1;
	uint32_t place = 8;
	for (size_t i = 0; i < count; i++) {
		place += (uint32_t)(below(2) == 0 ? 0 : below(30));
		draw_name(&drawn[i], place, i);
		place += drawn[i].label.length;
	}
	*size = place + (uint32_t)below(3);
	return count;
}

/* ---- writing them ---- */

/* A default as a maker writes it: a number where it can be one, else bytes with commas between them. */
static void put_default(FILE *to, const struct label *label, const char *open, const char *close)
{
	uint64_t number = 0;
	for (uint32_t i = label->length; label->length <= 8 && i > 0; i--)
		number = number << 8 | label->given[i - 1];
	if (label->length <= 8 && below(2) == 0) {
		fprintf(to, below(2) == 0 ? "0x%" PRIX64 : "%" PRIu64, number);
		return;
	}
	fputs(label->length > 1 ? open : "", to);
	for (uint32_t i = 0; i < label->length; i++)
		fprintf(to, "%s0x%02X", i == 0 ? "" : ", ", (unsigned)label->given[i]);
	fputs(label->length > 1 ? close : "", to);
}

/* One Find with all the names. */
static void put_bsf_block(FILE *to, const char *mark, const struct drawn *drawn, size_t count)
{
	uint32_t place = 8;
	fprintf(to, "\n    Find \"%s\"\n", mark);
	for (size_t i = 0; i < count; i++) {
		const struct label *label = &drawn[i].label;
		if (label->offset != place)
			fprintf(to, "        Skip %" PRIu32 " bytes\n", label->offset - place);
		fprintf(to, "        $%s %" PRIu32 " bytes", label->name, label->length);
		if (label->given != NULL) {
			fputs("    $_DEFAULT_ = ", to);
			put_default(to, label, "", "");
		}
		fputc('\n', to);
		place = label->offset + label->length;
	}
}

/* The lists and the page. */
static void put_bsf_page(FILE *to, const struct drawn *drawn, size_t count)
{
	for (size_t i = 0; i < count; i++) {
		if (drawn[i].label.choices == 0)
			continue;
		fprintf(to, "List &%s\n", drawn[i].name);
		for (size_t j = 0; j < drawn[i].label.choices; j++)
			fprintf(to, "    Selection 0x%" PRIX64 " , \"%s\"\n", drawn[i].choice[j].value, drawn[i].words[j]);
		fputs("EndList\n\n", to);
	}
	fputs("Page \"All\"\n", to);
	for (size_t i = 0; i < count; i++) {
		if (drawn[i].label.title == NULL)
			continue;
		if (drawn[i].label.choices > 0)
			fprintf(to, "    Combo $%s, \"%s\", &%s,\n", drawn[i].name, drawn[i].title, drawn[i].name);
		else
			fprintf(to, "    EditNum $%s, \"%s\", HEX,\n", drawn[i].name, drawn[i].title);
		fputs("        Help \"Words that are about it\"\n             \"Valid range: 0 ~ 1\"\n", to);
	}
	fputs("EndPage\n", to);
}

static void put_bsf(FILE *to, const struct drawn *drawn, size_t count)
{
	fputs("/** @file\n  $Nothing 4 bytes\n**/\nGlobalDataDef\n    SKUID = 0, \"DEFAULT\"\nEndGlobalData\n\nStructDef\n", to);
	put_bsf_block(to, "OTHERS_T", drawn, below(count + 1));
	put_bsf_block(to, "DRAWNS_M", drawn, count);
	put_bsf_block(to, "OTHERS_S", drawn, below(count + 1));
	fputs("\nEndStruct\n\n", to);
	put_bsf_page(to, drawn, count);
}

/* One setting of the YAML form; its fields are as deep as the file likes. */
static void put_yaml_item(FILE *to, const struct label *label)
{
	fprintf(to, "    - %-12s :\n        name         : %s\n", label->name, label->title == NULL ? "Reserved" : label->title);
	fprintf(to, "        type         : %s\n", label->choices > 0 ? "Combo" : label->title == NULL ? "Reserved" : "EditNum, HEX, (0, 1)");
	for (size_t i = 0; i < label->choices; i++)
		fprintf(to, "%s0x%" PRIx64 ":%s", i == 0 ? "        option       : " : ", ", label->choice[i].value, label->choice[i].words);
	fputs(label->choices > 0 ? "\n" : "", to);
	fputs("        help         : >\n                       Words that are about it\n", to);
	fprintf(to, "        length       : 0x%04" PRIX32 "\n", label->length);
	if (label->given != NULL) {
		fputs("        value        : ", to);
		put_default(to, label, "{ ", " }");
		fputc('\n', to);
	}
}

static void put_yaml_block(FILE *to, const char *mark, const struct drawn *drawn, size_t count)
{
	uint32_t place = 8;
	fprintf(to, "  - $ACTION      :\n      find         : %s\n  - %s     :\n    - Signature    :\n        length       : 0x08\n", mark, mark);
	for (size_t i = 0; i < count; i++) {
		const struct label *label = &drawn[i].label;
		if (label->offset != place)
			fprintf(to, "    - BsfSkip%zu     :\n        option       : $SKIP\n        length       : %" PRIu32 "\n", i,
				label->offset - place);
		put_yaml_item(to, label);
		place = label->offset + label->length;
	}
}

static void put_yaml(FILE *to, const struct drawn *drawn, size_t count)
{
	fputs("## @file\n#\n\nvariable:\n  NAME : 0x1\n\ntemplate:\n\nconfigs:\n", to);
	put_yaml_block(to, "OTHERS_T", drawn, below(count + 1));
	put_yaml_block(to, "DRAWNS_M", drawn, count);
	put_yaml_block(to, "OTHERS_S", drawn, below(count + 1));
}

/* In any order, since each line says its offset. */
static void put_text(FILE *to, const struct drawn *drawn, size_t count)
{
	fputs("identity 54524541542D3031 \"TREAT-01\"\nrevision 0x01020304 # the first\n", to);
	fputs("find OTHERS_T\n0x20 4 Setting0\n\tdefault 0x1\nfind \"DRAWNS_M\"\n", to);
	for (size_t i = 0; i < count; i++) {
		const struct label *label = &drawn[below(2) == 0 ? i : i].label;
		fprintf(to, below(2) == 0 ? "0x%" PRIX32 " %" PRIu32 " %s" : "%" PRIu32 " %" PRIu32 " %s", label->offset, label->length, label->name);
		fprintf(to, label->title == NULL ? "\n" : "  \"%s\"\n", label->title);
		for (uint32_t j = 0; label->given != NULL && j < label->length; j++)
			fprintf(to, "%s%02x", j == 0 ? "default " : " ", (unsigned)label->given[j]);
		fputs(label->given != NULL ? "\n" : "", to);
		for (size_t j = 0; j < label->choices; j++)
			fprintf(to, "choice 0x%" PRIX64 " \"%s\"\n", label->choice[j].value, label->choice[j].words);
	}
}

/* ---- comparing ---- */

static bool same_text(const char *one, const char *other)
{
	return one == NULL || other == NULL ? one == other : strcmp(one, other) == 0;
}

/* The setting can have that value, and a text of ours can say so. */
static bool fits(const struct label *label, uint64_t value)
{
	return label->length == 8 || (label->length < 8 && value >> (8 * label->length) == 0);
}

/* The same choices in the same order, but for those that no text of ours can say. */
static bool same_choices(const struct label *one, const struct label *other)
{
	size_t j = 0;
	for (size_t i = 0; i < one->choices; i++) {
		if (!fits(one, one->choice[i].value))
			continue;
		if (j == other->choices || one->choice[i].value != other->choice[j].value ||
		    strcmp(one->choice[i].words, other->choice[j].words) != 0)
			return false;
		j++;
	}
	return j == other->choices;
}

static bool same_label(const struct label *one, const struct label *other)
{
	if (one->offset != other->offset || one->length != other->length || !same_text(one->name, other->name) ||
	    !same_text(one->title, other->title) || (one->given == NULL) != (other->given == NULL))
		return false;
	return (one->given == NULL || memcmp(one->given, other->given, one->length) == 0) && same_choices(one, other);
}

/* ---- trying ---- */

/* What is written of names, in memory that is no longer than it is. */
static uint8_t *write_names(const struct names *names, const struct names_for *image, size_t *length)
{
	char *text = NULL;
	FILE *to = open_memstream(&text, length);
	if (to == NULL)
		exit(2);
	names_put_text(to, names, image);
	fclose(to);
	return (uint8_t *)text;
}

bool reads_back(const struct names *names, const struct names_for *image)
{
	struct names again;
	struct names_problem why;
	size_t length = 0;
	uint8_t *text = write_names(names, image, &length);
	bool same = names_read(text, length, image, &again, &why) && again.count == names->count && again.passed == 0;
	for (size_t i = 0; same && i < names->count; i++)
		same = same_label(&names->label[i], &again.label[i]);
	if (!same)
		fprintf(stderr, "%.*s\n%s\n", (int)length, (const char *)text, why.text);
	names_free(&again);
	free(text);
	return same;
}

/* One form of the names that were drawn. */
static bool try_form(void (*put)(FILE *, const struct drawn *, size_t), const struct drawn *drawn, size_t count,
		     const struct names_for *image)
{
	struct names names;
	struct names_problem why = { .text = "" };
	char *text = NULL;
	size_t length = 0;
	FILE *to = open_memstream(&text, &length);
	if (to == NULL)
		exit(2);
	put(to, drawn, count);
	fclose(to);
	bool same = names_read((const uint8_t *)text, length, image, &names, &why) && names.count == count && names.passed == 0;
	for (size_t i = 0; same && i < count; i++)
		same = same_label(&drawn[i].label, &names.label[i]);
	same = same && reads_back(&names, image);
	if (!same)
		fprintf(stderr, "%s\nnames_try: read otherwise: line %zu %s\n", text, why.line, why.text);
	names_free(&names);
	free(text);
	return same;
}

int try_random(uint64_t seed, uint64_t turns)
{
	static struct drawn drawn[MOST_DRAWN];
	start_draw(seed);
	size_t names = 0;
	for (uint64_t i = 0; i < turns; i++) {
		struct names_for image = { .mark = "DRAWNS_M", .identity = "TREAT-01", .revision = 0x01020304 };
		const size_t count = draw_names(drawn, &image.size);
		if (!try_form(put_bsf, drawn, count, &image) || !try_form(put_yaml, drawn, count, &image) ||
		    !try_form(put_text, drawn, count, &image))
			return 1;
		names += count;
	}
	printf("%zu names in three forms\n", names);
	return 0;
}
