/*
 * Names of settings, tried alone, without an image:
 *	names_try show FILE MARK SIZE        what is read, or why nothing is
 *	names_try text FILE MARK SIZE        the same as a text of our own
 *	names_try find FILE MARK SIZE WORD.. each word as a name, an offset (0x..) or NAME=WORDS
 *	names_try differ FILE MARK SIZE REGION
 *	names_try any FILE MARK SIZE SEED TURNS   the file cut and changed: nothing may trap
 *	names_try speed FILE MARK SIZE       read and looked up in less than a second of the processor
 *	names_try random SEED TURNS          names drawn, written in each form, read, written, read back
 * Files for an image with the identity TREAT-01 and revision 0x01020304; MARK has eight bytes, SIZE may be SIZE:EXTENDED. The buffers are
 * as long as the bytes, so that the address checks see what is read outside them. Exit status 0, or 1 where something is not as it must be.
 */
#include <inttypes.h>
#include <stdlib.h>
#include <string.h>
#include <time.h>

#include "names.h"
#include "names_draw.h"

static const char *const forms[] = { "BSF", "YAML", "TEXT" };
static const char *const faults[] = { "NO_FORM", "NO_MARK", "OUTSIDE", "OTHER", "BROKEN", "NO_MEMORY" };

static void die(const char *what)
{
	fprintf(stderr, "names_try: %s\n", what);
	exit(1);
}

/* A file's bytes, in memory that is no longer than they are. */
static uint8_t *load_exactly(const char *name, size_t *length)
{
	FILE *from = fopen(name, "rb");
	if (from == NULL || fseek(from, 0, SEEK_END) != 0)
		die(name);
	*length = (size_t)ftell(from);
	uint8_t *bytes = malloc(*length == 0 ? 1 : *length);
	rewind(from);
	if (bytes == NULL || fread(bytes, 1, *length, from) != *length)
		die(name);
	fclose(from);
	return bytes;
}

/* ---- showing ---- */

static void show_label(const struct label *label)
{
	printf("0x%04" PRIX32 " %" PRIu32 " ", label->offset, label->length);
	names_put_label(stdout, label);
	if (label->brief != label->name)
		printf(" brief %s", label->brief);
	fputs(" line ", stdout);
	printf("%zu", label->line);
	if (label->given != NULL) {
		fputs(" default ", stdout);
		names_put_value(stdout, label, label->given);
	}
	for (size_t i = 0; i < label->choices; i++)
		printf("%s%" PRIu64 ":%s", i == 0 ? " choices " : ", ", label->choice[i].value, label->choice[i].words);
	putchar('\n');
}

static int show(const struct names *names)
{
	printf("%s %zu\n", forms[names->form], names->count);
	for (size_t i = 0; i < names->count; i++)
		show_label(&names->label[i]);
	names_put_passed(stdout, "FILE", names);
	return 0;
}

/* NAME=WORDS: the value that these words are. */
static void find_value(const struct names *names, char *word)
{
	uint8_t bytes[65536];
	const struct label *label = NULL;
	char *words = strchr(word, '=');
	*words++ = 0;
	if (names_called(names, word, &label) != NAME_FOUND)
		die("no such name");
	switch (names_value(label, words, bytes)) {
	case NAME_FOUND:
		names_put_value(stdout, label, bytes);
		break;
	case NAME_SEVERAL:
		fputs("several", stdout);
		break;
	case NAME_UNKNOWN:
		fputs("unknown", stdout);
	}
	putchar('\n');
}

static void find_name(const struct names *names, const char *word)
{
	const struct label *found = NULL, *near[NEAREST];
	const enum names_sought sought = names_called(names, word, &found);
	if (sought != NAME_UNKNOWN) {
		printf("%s%s at 0x%04" PRIX32 "\n", sought == NAME_SEVERAL ? "several: " : "", found->name, found->offset);
		return;
	}
	fputs("unknown, near", stdout);
	const size_t count = names_nearest(names, word, near);
	for (size_t i = 0; i < count; i++)
		printf(" %s", near[i]->brief);
	putchar('\n');
}

static int find(const struct names *names, char **word)
{
	for (; *word != NULL; word++) {
		if (strncmp(*word, "0x", 2) == 0) {
			const struct label *label = names_at(names, (uint32_t)strtoul(*word, NULL, 16));
			puts(label == NULL ? "none" : label->name);
		} else if (strchr(*word, '=') != NULL)
			find_value(names, *word);
		else
			find_name(names, *word);
	}
	return 0;
}

static int differ(const struct names *names, const char *file)
{
	size_t length = 0;
	uint8_t *bytes = load_exactly(file, &length);
	const uint32_t first = length < 32 ? (uint32_t)length : 32;
	const struct settings settings = { .at = bytes + first, .first = 32, .end = 32 + (uint32_t)length - first };
	const struct names_differing d = names_defaults_differ(names, &settings);
	printf("%zu of %zu differ\n", d.differ, d.compared);
	for (size_t i = 0; i < d.differ && i < FIRST_DIFFERENT; i++) {
		const struct label *label = d.first[i];
		names_put_label(stdout, label);
		printf(" at 0x%04" PRIX32 ": ", label->offset);
		names_put_value(stdout, label, label->given);
		fputs(", found ", stdout);
		names_put_value(stdout, label, bytes + label->offset);
		putchar('\n');
	}
	free(bytes);
	return 0;
}

/* ---- any bytes ---- */

/* Nothing in a text that a reader would not see. */
static void judge_text(const char *text)
{
	const size_t length = strlen(text);
	if (length == 0 || length > MOST_NAME || text[0] == ' ' || text[length - 1] == ' ')
		die("a text is empty, too long or has blanks around it");
	for (size_t i = 0; i < length; i++)
		if ((unsigned char)text[i] < 32 || text[i] == 127 || text[i] == '"')
			die("a text has a sign that acts");
}

/* What holds of every table, whatever was read. */
static void judge(const struct names *names, const struct names_for *image)
{
	uint32_t end = 0;
	const struct label *found = NULL, *near[NEAREST];
	for (size_t i = 0; i < names->count; i++) {
		const struct label *label = &names->label[i];
		if (label->offset < end || label->length == 0 || label->length > image->size - label->offset)
			die("a name lies over another or outside");
		end = label->offset + label->length;
		judge_text(label->name);
		if (label->title != NULL)
			judge_text(label->title);
		for (size_t j = 0; j < label->choices; j++)
			judge_text(label->choice[j].words);
		if (names_called(names, label->name, &found) == NAME_UNKNOWN || strcmp(found->name, label->name) != 0 ||
		    names_at(names, label->offset) != label || names_at(names, end - 1) != label)
			die("a name isn't found");
		if (label->given != NULL && label->choices > 0)
			(void)names_words(label, label->given);
	}
	if (names->count > 0 && names_nearest(names, "Nothing", near) == 0)
		die("no name is near");
}

/* One turn: read, judged, and where it is accepted written and read back. */
static size_t turn(const uint8_t *bytes, size_t length, const struct names_for *image)
{
	struct names names;
	struct names_problem why = { .text = "" };
	if (!names_read(bytes, length, image, &names, &why)) {
		if (why.text[0] == 0 || names.kept != NULL || names.by_name != NULL)
			die("a refusal says nothing, or keeps something");
		return 0;
	}
	judge(&names, image);
	if (!reads_back(&names, image))
		die("what is written reads back to other names");
	names_free(&names);
	return 1;
}

static int try_any(const char *file, const struct names_for *image, uint64_t seed, uint64_t turns)
{
	size_t length = 0, read = 0;
	uint8_t *bytes = load_exactly(file, &length);
	start_draw(seed);
	for (uint64_t i = 0; i < turns; i++) {
		size_t drawn = 0;
		uint8_t *changed = draw_changed(bytes, length, &drawn);
		read += turn(changed, drawn, image);
		free(changed);
	}
	free(bytes);
	printf("%zu of %" PRIu64 " read\n", read, turns);
	return 0;
}

/* Every name and every offset of a file, by the processor's time. */
static int try_speed(const char *file, const struct names_for *image)
{
	size_t length = 0;
	struct names names;
	struct names_problem why;
	uint8_t *bytes = load_exactly(file, &length);
	const clock_t start = clock();
	if (!names_read(bytes, length, image, &names, &why))
		die(why.text);
	judge(&names, image);
	for (uint32_t i = 0; i < image->size; i++)
		(void)names_at(&names, i);
	const clock_t taken = clock() - start;
	printf("%zu names\n", names.count);
	if (taken >= CLOCKS_PER_SEC)
		die("more than a second");
	names_free(&names);
	free(bytes);
	return 0;
}

/* ---- words ---- */

static int read_and(const char *what, char **word, const struct names_for *image)
{
	struct names names;
	struct names_problem why;
	size_t length = 0;
	int status = 0;
	uint8_t *bytes = load_exactly(word[0], &length);
	const bool taken = names_read(bytes, length, image, &names, &why);
	free(bytes);
	if (!taken) {
		printf("refused %s: ", faults[why.fault]);
		names_put_problem(stdout, "FILE", &why);
		return 0;
	}
	if (strcmp(what, "show") == 0)
		status = show(&names);
	else if (strcmp(what, "text") == 0)
		names_put_text(stdout, &names, image);
	else if (strcmp(what, "find") == 0)
		status = find(&names, word + 3);
	else
		status = differ(&names, word[3]);
	names_free(&names);
	return status;
}

int main(int count, char **word)
{
	struct names_for image = { .identity = "TREAT-01", .revision = 0x01020304 };
	if (count == 4 && strcmp(word[1], "random") == 0)
		return try_random(strtoull(word[2], NULL, 10), strtoull(word[3], NULL, 10));
	if (count < 5 || strlen(word[3]) != 8)
		die("usage: names_try WHAT FILE MARK SIZE ..");
	memcpy(image.mark, word[3], 8);
	char *colon = NULL;
	image.size = (uint32_t)strtoul(word[4], &colon, 0);
	image.extended = *colon == ':' ? strtoul(colon + 1, NULL, 0) : 0;
	if (count == 5 && strcmp(word[1], "speed") == 0)
		return try_speed(word[2], &image);
	if (count == 7 && strcmp(word[1], "any") == 0)
		return try_any(word[2], &image, strtoull(word[5], NULL, 10), strtoull(word[6], NULL, 10));
	return read_and(word[1], word + 2, &image);
}
