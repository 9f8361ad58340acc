/*
 * Refusals 25 to 27 in words. Their answers name no place, so the library itself is asked for it: on a copy
 * in which the later modules are raw sections, which it passes over, and then with fewer patch entries.
 */
#include <inttypes.h>
#include <stdio.h>
#include <stdlib.h>
#include <string.h>
#include <time.h>

#include "modules.h"
#include "pajurenda.h"
#include "refusals.h"
#include "show.h"

/* The type of a section that is passed over. */
#define RAW_SECTION 0x19

/* How long the library is asked, in seconds; an image may be made so that a reading takes long. */
#define MOST_SECONDS 10

/* A copy that is asked about: the refusal that it must still have, its modules, its own bytes of old. */
struct asking_copy {
	const struct letters *w;
	const struct files *files;
	uint32_t number;
	uint8_t *copy;
};

/* What is at fault lies at or after `low` and before `high`. */
struct stretch {
	uint64_t low, high;
};

/* A number with its name before it. */
static void say(const char *name, uint64_t value)
{
	fprintf(saying(), "%s %" PRIu64, name, value);
}

/* ---- asking ---- */

/* The copy is still refused by the same number with its first modules alone. */
static bool refuses_modules(const struct asking_copy *asking, uint64_t count)
{
	const struct bytes *image = asking->w->image;
	uint8_t answer[PAJURENDA_READ_BYTES] = { 0 };
	for (size_t i = 0; i < asking->files->modules; i++) {
		const uint64_t type = asking->files->held[i].section + 3;
		asking->copy[type] = i < count ? image->at[type] : RAW_SECTION;
	}
	return pajurenda_read(asking->copy, image->length, answer, sizeof answer) == asking->number;
}

/* The same with its first patch entries alone: n stands at p+8. */
static bool refuses_entries(const struct asking_copy *asking, uint64_t count)
{
	uint8_t answer[PAJURENDA_READ_BYTES] = { 0 };
	for (unsigned i = 0; i < 4; i++)
		asking->copy[asking->w->p + 8 + i] = (uint8_t)(count >> (8 * i));
	return pajurenda_read(asking->copy, asking->w->image->length, answer, sizeof answer) ==
	       asking->number;
}

/* The first that makes the refusal, of so many that together do: none where it is there without them,
   which leaves 0 to 0; one, or a few where the time is over. */
static struct stretch find_first(const struct asking_copy *asking, uint64_t count,
				 bool (*refuses)(const struct asking_copy *asking, uint64_t count))
{
	const clock_t start = clock();
	struct stretch found = { .low = 0, .high = count };
	if (count == 0 || refuses(asking, 0))
		return (struct stretch){ .low = 0, .high = 0 };
	while (found.high - found.low > 1 && (clock() - start) / CLOCKS_PER_SEC < MOST_SECONDS) {
		const uint64_t middle = (found.low + found.high) / 2;
		if (refuses(asking, middle))
			found.high = middle;
		else
			found.low = middle;
	}
	return found;
}

/* ---- saying ---- */

/* The region, in which no header, block or free end may be. */
static void say_region(const struct letters *w)
{
	say(", c", w->c);
	say(", z", w->z);
}

/* The file at which the walk stops. */
static void say_stopped_file(const struct letters *w, const struct files *files)
{
	say("file", files->count);
	say(" (counted from 0) at", files->file);
	if (files->end - files->file < 24) {
		say(" has no 24 bytes before V", w->V);
		return;
	}
	fputs(": name ", saying());
	show_guid(saying(), w->image->at + files->file);
	fprintf(saying(), ", attributes 0x%02" PRIX64, number_at(w->image, files->file + 19, 1));
	fprintf(saying(), ", sum 0x%02X", sum_of_file(w->image, files->file));
	say(", size", number_at(w->image, files->file + 20, 3));
	say(", V", w->V);
}

/* The section at which the walk stops. */
static void say_stopped_section(const struct letters *w, const struct files *files)
{
	say("section at", files->section);
	say(" of file", files->count);
	say(" (counted from 0) at", files->file);
	fputs(", name ", saying());
	show_guid(saying(), w->image->at + files->file);
	if (files->file_end - files->section >= 4) {
		fprintf(saying(), ": type 0x%02" PRIX64, number_at(w->image, files->section + 3, 1));
		say(", size", number_at(w->image, files->section, 3));
	}
	say(", the file ends at", files->file_end);
}

/* A module by its number, its file, and where it can be cut out of the image. */
static void say_held(const struct letters *w, const struct files *files, const struct stretch *found)
{
	const struct held *held = &files->held[found->low];
	if (found->high - found->low > 1) {
		say("one of the modules", found->low);
		say(" to", found->high - 1);
		fputs(" (counted from 0)", saying());
		return;
	}
	say("module", found->low);
	fprintf(saying(), " (counted from 0), %s, file ",
		number_at(w->image, held->section + 3, 1) == 0x12 ? "TE" : "PE32");
	show_guid(saying(), w->image->at + held->file);
	say(", section", held->section);
	say(", place", held->section + 4);
	say(", length", number_at(w->image, held->section, 3) - 4);
}

/* 25 of a module: its marks, and where the region is. */
static void say_marks(const struct letters *w, const struct held *held)
{
	const uint64_t place = held->section + 4;
	fputs(", mark ", saying());
	say_bytes(w->image, place, 2);
	if (number_at(w->image, held->section + 3, 1) == 0x10) {
		say(", e_lfanew", number_at(w->image, place + 60, 4));
		fputs(", mark there ", saying());
		say_bytes(w->image, place + number_at(w->image, place + 60, 4), 4);
	}
	say_region(w);
}

/* 26: the patch word that has a part in it, or that none has; asked of the copy with the modules up to
   the one that was found. */
static void say_patch_word(const struct asking_copy *asking)
{
	const struct letters *w = asking->w;
	if (!has_bytes(w->image, w->p, 12) || w->n > 1024)
		return;
	const struct stretch found = find_first(asking, w->n, refuses_entries);
	if (found.high == 0) {
		fputs(", by its own words", saying());
		return;
	}
	if (found.high - found.low > 1)
		return;
	const int64_t place = where_it_points(entry_at(w, found.low), w->image->length);
	say(", patch entry", found.low);
	fprintf(saying(), " (counted from 0) points to %" PRId64, place);
	if (place + 4 > (int64_t)asking->files->file_end && place < (int64_t)w->V) {
		say(", in the free end from", asking->files->file_end);
		say(" to V", w->V);
	}
}

/* No module has a part in it: how far the files go, and what else no header may be in. */
static void say_files(const struct letters *w, const struct files *files)
{
	say("no module is at fault, files", files->count);
	say(" up to", files->file_end);
	say(", V", w->V);
}

/* What the copy's answers tell of a refusal that the walk didn't stop at. */
static void say_asked(const struct asking_copy *asking)
{
	const struct letters *w = asking->w;
	const struct stretch found = find_first(asking, asking->files->modules, refuses_modules);
	const bool one = found.high - found.low == 1;
	if (found.high > 0)
		say_held(w, asking->files, &found);
	else
		say_files(w, asking->files);
	if (asking->number == PAJURENDA_MODULE && one)
		say_marks(w, &asking->files->held[found.low]);
	else if (asking->number == PAJURENDA_MODULE)
		say_region(w);
	if (asking->number != PAJURENDA_WORD)
		return;
	(void)refuses_modules(asking, found.high);
	say_patch_word(asking);
}

/* The copy, and all that is asked of it. */
static void ask(const struct letters *w, uint32_t number, const struct files *files)
{
	struct asking_copy asking = { .w = w, .files = files, .number = number,
				      .copy = malloc(w->image->length + 1) };
	if (asking.copy == NULL) {
		say("modules", files->modules);
		return;
	}
	memcpy(asking.copy, w->image->at, w->image->length);
	say_asked(&asking);
	free(asking.copy);
}

/* The values of 25, 26 and 27. */
void say_module_values(const struct letters *w, uint32_t number)
{
	const struct files files = follow_files(w);
	if (files.stop == AT_FILE)
		say_stopped_file(w, &files);
	else if (files.stop == AT_SECTION)
		say_stopped_section(w, &files);
	else
		ask(w, number, &files);
	free(files.held);
}
