/* map DUMP: the free memory by a list of hand-off blocks, and what reserved ranges took away; place
   DUMP IMAGE|SIZE: a base in it. */
#define _XOPEN_SOURCE 700

#include <inttypes.h>
#include <stdio.h>
#include <stdlib.h>
#include <string.h>
#include <unistd.h>

#include "dump.h"
#include "files.h"
#include "json.h"
#include "memory.h"
#include "messages.h"
#include "numbers.h"

#define KIB UINT64_C(1024)
#define MIB (KIB * KIB)

/* All that is shown of a list that has a map. */
struct shown {
	struct map free, memory;
	struct resource reserved[MOST_FREE];
	size_t count;
};

/* How many bytes a range has, in hex: up to 2^64, which 64 bits don't hold. */
static void show_size(struct span span)
{
	const uint64_t more = span.last - span.first;
	if (more == UINT64_MAX)
		fputs("0x10000000000000000", stdout);
	else
		printf("0x%08" PRIX64, more + 1);
}

/* ---- for a person ---- */

/* The same in whole KiB or MiB, and whether that is all. */
static void say_size(struct span span)
{
	const uint64_t more = span.last - span.first;
	const bool large = more >= MIB - 1 && (more % MIB == MIB - 1 || more % KIB != KIB - 1);
	const uint64_t unit = large ? MIB : KIB;
	const uint64_t whole = more / unit + (more % unit == unit - 1 ? 1 : 0);
	if (whole == 0)
		fputs("under 1 KiB", stdout);
	else
		printf("%s%" PRIu64 " %s", more % unit == unit - 1 ? "" : "over ", whole, large ? "MiB" : "KiB");
}

static void say_span(const char *what, struct span span)
{
	printf("%s first 0x%08" PRIX64 " last 0x%08" PRIX64 " size ", what, span.first, span.last);
	show_size(span);
	fputs(" (", stdout);
	say_size(span);
	putchar(')');
}

/* Each range of memory that a reserved block took; a line too where it took none. */
static void say_taken(const struct map *memory, const struct resource *reserved)
{
	struct span both;
	size_t taken = 0;
	for (size_t i = 0; i < memory->count; i++)
		if (overlap(reserved, span_at(memory, i), &both)) {
			say_span("taken", both);
			printf(" by the block at %" PRIu64 "\n", reserved->place);
			taken++;
		}
	if (taken == 0)
		printf("taken none by the block at %" PRIu64 "\n", reserved->place);
}

static void say_map(const struct shown *shown)
{
	for (size_t i = 0; i < shown->free.count; i++) {
		say_span("free", span_at(&shown->free, i));
		putchar('\n');
	}
	if (shown->free.count == 0)
		puts("free none");
	for (size_t i = 0; i < shown->count; i++)
		say_taken(&shown->memory, &shown->reserved[i]);
}

/* ---- for a program: 64 bits are text, as in the document of handoff ---- */

static void write_span(const char *before, struct span span)
{
	printf("%s{\"first\": \"0x%08" PRIX64 "\", \"last\": \"0x%08" PRIX64 "\", \"size\": \"", before,
	       span.first, span.last);
	show_size(span);
	fputs("\"}", stdout);
}

static void write_taken(const struct map *memory, const struct resource *reserved)
{
	struct span both;
	const char *before = "";
	printf("\n    {\"place\": %" PRIu64 ", \"start\": \"0x%08" PRIX64 "\"", reserved->place,
	       reserved->start);
	printf(", \"size\": \"0x%08" PRIX64 "\", \"taken\": [", reserved->size);
	for (size_t i = 0; i < memory->count; i++)
		if (overlap(reserved, span_at(memory, i), &both)) {
			write_span(before, both);
			before = ", ";
		}
	fputs("]}", stdout);
}

/* One document, of a refusal too. */
static void write_map(const struct named *dump, uint32_t number, const struct shown *shown)
{
	begin_json("map");
	json_text("file", dump->name);
	json_number("number", number);
	json_text("name", pajurenda_name(number));
	json_refusal(number);
	if (number == PAJURENDA_ACCEPTED) {
		fputs(",\n  \"free\": [", stdout);
		for (size_t i = 0; i < shown->free.count; i++)
			write_span(i == 0 ? "\n    " : ",\n    ", span_at(&shown->free, i));
		printf("%s],\n  \"reserved\": [", shown->free.count == 0 ? "" : "\n  ");
		for (size_t i = 0; i < shown->count; i++) {
			fputs(i == 0 ? "" : ",", stdout);
			write_taken(&shown->memory, &shown->reserved[i]);
		}
		printf("%s]", shown->count == 0 ? "" : "\n  ");
	}
	end_json();
}

/* ---- the map ---- */

/* A loaded dump's map, shown. */
static enum status show_map(struct named *dump, bool json)
{
	static struct shown shown;
	const uint32_t number = make_map(&dump->bytes, &shown.free);
	const enum status status = number == PAJURENDA_ACCEPTED ? FINE : refuse_memory(number, dump, 0);
	if (number == PAJURENDA_ACCEPTED &&
	    !take_away(&dump->bytes, shown.reserved, &shown.count, &shown.memory))
		return fail_answer();
	if (json)
		write_map(dump, number, &shown);
	else if (number == PAJURENDA_ACCEPTED)
		say_map(&shown);
	return status;
}

/* map [--json] DUMP */
enum status do_map(char **word, const struct options *options)
{
	struct named dump = { .name = word[0] };
	if (!load_dump(&dump))
		return FAILED;
	const enum status status = show_map(&dump, (options->given & JSON) != 0);
	free(dump.bytes.at);
	return status;
}

/* ---- the place ---- */

/* The size of an image that reads; false after a message. */
static bool size_of_image(const char *name, uint64_t *size)
{
	uint8_t reading[PAJURENDA_READ_BYTES] = { 0 };
	struct named image = { .name = name };
	if (!load(name, &image.bytes))
		return false;
	const uint32_t number =
		pajurenda_read(image.bytes.at, image.bytes.length, reading, sizeof reading);
	if (number != PAJURENDA_ACCEPTED)
		refuse_image(number, pajurenda_field(reading, PAJURENDA_READ_INDEX), &image);
	*size = image.bytes.length;
	free(image.bytes.at);
	return number == PAJURENDA_ACCEPTED;
}

/* A number is a size, any other word a file; one that starts like a number and is no file is told
   how to write a size. */
static bool take_size(const char *word, uint64_t *size, const char **image)
{
	const bool digit = word[0] >= '0' && word[0] <= '9';
	if (read_number(word, size) != NO_NUMBER || (digit && access(word, F_OK) != 0))
		return take_number("place", "SIZE", word, size);
	*image = word;
	return size_of_image(word, size);
}

/* What is placed, and where. */
static void write_place(const struct named *dump, const char *image, uint64_t size, uint64_t base)
{
	begin_document();
	json_text("file", dump->name);
	json_text("image", image);
	json_answer(PAJURENDA_ACCEPTED, 0);
	json_number("size", size);
	json_hex("base", 8, base);
	end_json();
}

/* The base alone, as `release` takes it. */
static enum status show_place(const struct named *dump, const char *image, uint64_t size)
{
	uint8_t answer[PAJURENDA_LOWEST_BYTES] = { 0 };
	const uint32_t number =
		pajurenda_lowest_base(dump->bytes.at, dump->bytes.length, size, answer, sizeof answer);
	if (number != PAJURENDA_ACCEPTED)
		return refuse_memory(number, dump, size);
	const uint64_t base = pajurenda_field(answer, PAJURENDA_LOWEST_BASE);
	if (is_json())
		write_place(dump, image, size, base);
	else
		printf("0x%08" PRIX64 "\n", base);
	return FINE;
}

/* place [--json] DUMP IMAGE|SIZE */
enum status do_place(char **word, const struct options *options)
{
	struct named dump = { .name = word[0] };
	const char *image = NULL;
	uint64_t size = 0;
	(void)options;
	if (!take_size(word[1], &size, &image) || !load_dump(&dump))
		return FAILED;
	const enum status status = show_place(&dump, image, size);
	free(dump.bytes.at);
	return status;
}
