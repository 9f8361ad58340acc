/* split FILE FOLDER: each component of a maker's file as a file of its own, and what is left over. */
#define _XOPEN_SOURCE 700

#include <errno.h>
#include <inttypes.h>
#include <stdio.h>
#include <stdlib.h>
#include <string.h>
#include <sys/stat.h>

#include "components.h"
#include "digest.h"
#include "files.h"
#include "json.h"
#include "messages.h"
#include "refusals.h"
#include "show.h"
#include "signs.h"

/* The file, where its components go, and all of them by place. */
struct splitting {
	struct named file;
	const char *folder;
	struct component *part;
	size_t count;
};

/* ---- the components ---- */

/* FOLDER/N-X.fd, N counted from 1 and X the component's letter; NULL after a message where there is no memory. */
static char *name_part(const struct splitting *splitting, size_t index)
{
	const size_t room = strlen(splitting->folder) + 40;
	char *name = malloc(room);
	if (name == NULL)
		fail_no_memory(splitting->folder);
	else
		snprintf(name, room, "%s/%zu-%c.fd", splitting->folder, index + 1, letter_of(&splitting->part[index]));
	return name;
}

/* Its bytes in the file. */
static struct bytes bytes_of(const struct splitting *splitting, size_t index)
{
	const struct component *part = &splitting->part[index];
	return (struct bytes){ .at = splitting->file.bytes.at + part->place, .length = (size_t)part->length };
}

/* Where the bytes before a component begin that are in none; past the last one, those at the file's end. */
static uint64_t rest_before(const struct splitting *splitting, size_t index)
{
	return index == 0 ? 0 : splitting->part[index - 1].place + splitting->part[index - 1].length;
}

/* Where they end. */
static uint64_t rest_to(const struct splitting *splitting, size_t index)
{
	return index == splitting->count ? splitting->file.bytes.length : splitting->part[index].place;
}

/* What all bytes of a stretch are, FF or 00; NULL where they are neither. */
static const char *all_of(const struct bytes *file, uint64_t from, uint64_t to)
{
	return is_all(file, from, to - from, 0xFF) ? "FF" : is_all(file, from, to - from, 0) ? "00" : NULL;
}

/* Every component; false after a message. */
static bool find_parts(struct splitting *splitting)
{
	struct looking looking;
	struct component component;
	start_looking(&looking, &splitting->file.bytes);
	while (next_component(&looking, &component)) {
		struct component *more = realloc(splitting->part, (splitting->count + 1) * sizeof *more);
		if (more == NULL) {
			fail_no_memory(splitting->file.name);
			return false;
		}
		splitting->part = more;
		splitting->part[splitting->count++] = component;
	}
	if (splitting->count == 0)
		fail_usage("split", "", splitting->file.name,
			   ": at no place where a volume starts the library reads a component");
	return splitting->count != 0;
}

/* ---- in lines ---- */

/* The bytes before a component that are in none. */
static void show_rest(const struct splitting *splitting, size_t index)
{
	const uint64_t from = rest_before(splitting, index), to = rest_to(splitting, index);
	if (from >= to)
		return;
	const char *all = all_of(&splitting->file.bytes, from, to);
	printf("left over at %" PRIu64 " length %" PRIu64 "%s%s\n", from, to - from, all == NULL ? "" : ", all ",
	       all == NULL ? "" : all);
}

/* A component by what it says of itself. */
static void show_part(const char *name, const struct component *component)
{
	put_name(stdout, name);
	printf(" component %c at %" PRIu64 " length %" PRIu64 " base 0x%08" PRIX64 " identity ", letter_of(component),
	       component->place, component->length, pajurenda_field(component->reading, PAJURENDA_READ_BASE));
	show_identity(stdout, pajurenda_identity(component->reading));
	fputs(" version ", stdout);
	show_image_version(stdout, pajurenda_field(component->reading, PAJURENDA_READ_REVISION),
			   pajurenda_field(component->reading, PAJURENDA_READ_EXTENDED));
	putchar('\n');
}

/* ---- as a document ---- */

/* What the component says of itself, as members of an object. */
static void write_self(const struct component *component)
{
	const uint8_t *identity = pajurenda_identity(component->reading);
	const uint64_t revision = pajurenda_field(component->reading, PAJURENDA_READ_REVISION);
	const uint64_t extended = pajurenda_field(component->reading, PAJURENDA_READ_EXTENDED);
	char text[9] = "";
	memcpy(text, identity, 8);
	printf(", \"base\": \"0x%08" PRIX64 "\", \"identity\": ",
	       pajurenda_field(component->reading, PAJURENDA_READ_BASE));
	json_bytes(identity, 8);
	fputs(", \"identity_text\": ", stdout);
	if (is_printable(identity, 8))
		put_json_text(stdout, text);
	else
		fputs("null", stdout);
	printf(", \"revision\": \"0x%08" PRIX64 "\", \"extended\": \"0x%04" PRIX64 "\", \"version\": \"", revision, extended);
	show_image_version(stdout, revision, extended);
	putchar('"');
}

/* A component and the file that it went to. */
static void write_part(const struct splitting *splitting, size_t index)
{
	const struct component *part = &splitting->part[index];
	const struct bytes bytes = bytes_of(splitting, index);
	char digits[DIGEST_DIGITS + 1] = "";
	char *name = name_part(splitting, index);
	printf("%s\n    {\"out\": ", index == 0 ? "" : ",");
	put_json_text(stdout, name == NULL ? "" : name);
	printf(", \"component\": \"%c\", \"place\": %" PRIu64 ", \"length\": %" PRIu64, letter_of(part), part->place,
	       part->length);
	printf(find_digest(&bytes, digits) ? ", \"sha256\": \"%s\"" : ", \"sha256\": null", digits);
	write_self(part);
	putchar('}');
	free(name);
}

/* What is in no component. */
static void write_rests(const struct splitting *splitting)
{
	const char *before = "";
	fputs(",\n  \"left_over\": [", stdout);
	for (size_t i = 0; i <= splitting->count; i++) {
		const uint64_t from = rest_before(splitting, i), to = rest_to(splitting, i);
		if (from >= to)
			continue;
		const char *all = all_of(&splitting->file.bytes, from, to);
		printf("%s{\"place\": %" PRIu64 ", \"length\": %" PRIu64 ", \"all\": %s%s%s}", before, from, to - from,
		       all == NULL ? "" : "\"", all == NULL ? "null" : all, all == NULL ? "" : "\"");
		before = ", ";
	}
	putchar(']');
}

/* The whole document; the library has read every component. */
static void write_split(const struct splitting *splitting)
{
	begin_json("split");
	json_text("file", splitting->file.name);
	json_text("folder", splitting->folder);
	json_answer(PAJURENDA_ACCEPTED, 0);
	fputs(",\n  \"components\": [", stdout);
	for (size_t i = 0; i < splitting->count; i++)
		write_part(splitting, i);
	fputs("\n  ]", stdout);
	write_rests(splitting);
	end_json();
}

/* ---- the command ---- */

/* One component: is its place free, or is it written and shown. */
static bool take_part(const struct splitting *splitting, size_t index, bool write)
{
	const struct bytes part = bytes_of(splitting, index);
	char *name = name_part(splitting, index);
	if (name == NULL)
		return false;
	const bool own = is_same_file(name, splitting->file.name);
	if (own)
		fail_usage("split", "", name, " is FILE itself, which would be lost: name another FOLDER");
	const bool taken = !own && (write ? save(name, &part) : is_free(name));
	if (taken && write && !is_json())
		show_part(name, &splitting->part[index]);
	free(name);
	return taken;
}

/* All of them, the first time only to see that nothing is in their way; false after a message. */
static bool take_parts(const struct splitting *splitting, bool write)
{
	for (size_t i = 0; i < splitting->count; i++) {
		if (write && !is_json())
			show_rest(splitting, i);
		if (!take_part(splitting, i, write))
			return false;
	}
	if (write && !is_json())
		show_rest(splitting, splitting->count);
	else if (write)
		write_split(splitting);
	return true;
}

/* The folder is one; false after a message. */
static bool is_folder(const char *name)
{
	struct stat about;
	const int reason = stat(name, &about) != 0 ? errno : S_ISDIR(about.st_mode) ? 0 : ENOTDIR;
	if (reason != 0)
		fail_at(name, reason);
	return reason == 0;
}

/* split [--json] FILE FOLDER */
enum status do_split(char **word, const struct options *options)
{
	struct splitting splitting = { .file = { .name = word[0] }, .folder = word[1] };
	(void)options;
	if (!is_folder(word[1]) || !load_whole(word[0], &splitting.file.bytes))
		return FAILED;
	const bool done = find_parts(&splitting) && take_parts(&splitting, false) && take_parts(&splitting, true);
	free(splitting.part);
	free(splitting.file.bytes.at);
	return done ? FINE : FAILED;
}
