/* A release's record read: a document of ours that is as it was written, by the digest at its end. */
#include "record.h"

#include <inttypes.h>
#include <stdlib.h>
#include <string.h>

#include "inputs.h"
#include "messages.h"
#include "numbers.h"

/* What every record begins with, and what stands before the digest of all that is before it. */
static const char beginning[] = "{\n  \"record\": \"pajurenda release\"";
static const char ending[] = ",\n  \"record_sha256\": \"";

/* An entry of more bytes isn't looked at. */
#define MOST_ENTRY ((size_t)4096)

/* ---- small ones ---- */

/* A text; NULL where there is none. */
const char *text_in(const struct piece *object, const char *name)
{
	const struct piece *member = member_of(object, name, A_TEXT);
	return member == NULL ? NULL : member->text;
}

/* A number that is shown in hex; false where there is none. */
bool hex_in(const struct piece *object, const char *name, uint64_t *value)
{
	const char *text = text_in(object, name);
	return text != NULL && read_base(text, value) == NUMBER;
}

/* ---- files ---- */

/* A file's length and digest; false after a message. */
bool file_of(const char *name, const struct bytes *bytes, struct filed *filed)
{
	*filed = (struct filed){ .name = name, .length = bytes->length };
	if (find_digest(bytes, filed->digest))
		return true;
	fputs("pajurenda: ", stderr);
	say_name(name);
	fputs(": its SHA-256 can't be had, so no record can be written or held against it\n", stderr);
	return false;
}

/* The bytes have the recorded length and digest; theirs is in digits. */
bool is_filed(const struct filed *filed, const struct bytes *bytes, char *digits)
{
	strcpy(digits, "not to be had");
	return find_digest(bytes, digits) && bytes->length == filed->length &&
	       strcmp(digits, filed->digest) == 0;
}

/* The same of a file whose bytes are as they were read. */
bool is_filed_input(const struct filed *filed, const struct bytes *file, char *digits)
{
	strcpy(digits, "not to be had");
	return input_digest(file, digits) && file->length == filed->length && strcmp(digits, filed->digest) == 0;
}

/* An image has the bytes of an entry, old or new ones; the library says where they lie. */
static bool has_entry(const struct piece *entry, const struct bytes *image, const char *which)
{
	const char *digits = text_in(entry, which);
	uint8_t bytes[MOST_ENTRY];
	struct change change;
	uint64_t offset = 0;
	if (digits == NULL || !all_hex(digits) || strlen(digits) / 2 > MOST_ENTRY || !hex_in(entry, "offset", &offset))
		return false;
	const size_t length = strlen(digits) / 2;
	for (size_t i = 0; i < length; i++)
		bytes[i] = byte_of(digits + 2 * i);
	return find_change(image, offset, bytes, length, &change) && count_changed(&change) == 0;
}

/* An image has the settings of the last step that set any: what it set, where that isn't what was there before. */
bool has_settings(const struct record *record, const struct bytes *image)
{
	for (size_t i = record->count; i > 0; i--) {
		bool all = true, some = false;
		for (const struct piece *entry = record->steps[i - 1].entries->first; entry != NULL; entry = entry->next) {
			all = all && has_entry(entry, image, "new");
			some = some || !has_entry(entry, image, "old");
		}
		if (all && some)
			return true;
		if (record->steps[i - 1].entries->first != NULL)
			return false;
	}
	return false;
}

/* ---- the whole ---- */

/* It begins as a record does; whether it is one as it was written is another question. */
bool is_record(const struct bytes *bytes)
{
	return bytes->length >= sizeof beginning - 1 && memcmp(bytes->at, beginning, sizeof beginning - 1) == 0;
}

/* What is wrong with a record. */
static bool fail_record(const char *name, const char *fault)
{
	fputs("pajurenda: ", stderr);
	say_name(name);
	fprintf(stderr, ": %s\n", fault);
	return false;
}

/* The text's last line but one is the digest of all before it. */
static bool is_whole(const struct bytes *bytes)
{
	const size_t tail = sizeof ending - 1 + DIGEST_DIGITS + 4;
	char digits[DIGEST_DIGITS + 1];
	if (bytes->length < tail)
		return false;
	const struct bytes before = { .at = bytes->at, .length = bytes->length - tail };
	const uint8_t *at = bytes->at + before.length;
	return memcmp(at, ending, sizeof ending - 1) == 0 && find_digest(&before, digits) &&
	       memcmp(at + sizeof ending - 1, digits, DIGEST_DIGITS) == 0 &&
	       memcmp(at + tail - 4, "\"\n}\n", 4) == 0;
}

/* ---- its parts ---- */

/* A file; none where null stands there; false where it is neither. */
static bool file_in(const struct piece *object, const char *name, bool may_lack, struct filed *filed)
{
	const struct piece *file = member_of(object, name, AN_OBJECT);
	const struct piece *length = member_of(file, "length", A_NUMBER);
	const char *digits = text_in(file, "sha256");
	*filed = (struct filed){ .name = text_in(file, "file") };
	if (file == NULL)
		return may_lack && member_of(object, name, A_WORD) != NULL;
	if (filed->name == NULL || length == NULL || digits == NULL || strlen(digits) != DIGEST_DIGITS)
		return false;
	filed->length = length->number;
	strcpy(filed->digest, digits);
	return true;
}

/* One step; false where something is missing. */
static bool step_in(const struct piece *object, struct step *step)
{
	const struct piece *owner = member_of(object, "owner", A_NUMBER);
	step->time = text_in(object, "time");
	step->tool = text_in(object, "tool");
	step->entries = member_of(object, "entries", A_LIST);
	step->not_walked = member_of(object, "not_walked", A_LIST);
	step->owner = owner == NULL ? 0 : owner->number;
	return owner != NULL && step->time != NULL && step->tool != NULL && step->entries != NULL &&
	       step->not_walked != NULL && file_in(object, "sheet", false, &step->sheet) &&
	       file_in(object, "owners", false, &step->owners) &&
	       file_in(object, "names", true, &step->names) &&
	       file_in(object, "result", false, &step->result) &&
	       file_in(object, "replaced", true, &step->replaced) &&
	       hex_in(object, "base_before", &step->before) && hex_in(object, "base_after", &step->after);
}

/* All steps, one at least; false where something is missing. */
static bool steps_in(const struct piece *list, struct record *record)
{
	size_t count = 0;
	for (const struct piece *step = list == NULL ? NULL : list->first; step != NULL; step = step->next)
		count++;
	record->steps = calloc(count + 1, sizeof *record->steps);
	if (count == 0 || record->steps == NULL)
		return false;
	for (const struct piece *step = list->first; step != NULL; step = step->next)
		if (!step_in(step, &record->steps[record->count++]))
			return false;
	return true;
}

/* Eight bytes in hex; false where they aren't there. */
static bool identity_in(const struct piece *object, uint8_t *identity)
{
	const char *text = text_in(object, "identity");
	if (text == NULL || strlen(text) != 16 || !all_hex(text))
		return false;
	for (size_t i = 0; i < 8; i++)
		identity[i] = byte_of(text + 2 * i);
	return true;
}

/* Everything that a record has; false where something is missing. */
static bool parts_in(struct record *record)
{
	const struct piece *object = record->document;
	return file_in(object, "maker", false, &record->maker) && identity_in(object, record->identity) &&
	       hex_in(object, "revision", &record->revision) &&
	       hex_in(object, "extended", &record->extended) && hex_in(object, "base", &record->base) &&
	       steps_in(member_of(object, "steps", A_LIST), record);
}

/* A record from bytes, which stay the caller's; false after a message. */
bool take_record(const char *name, const struct bytes *bytes, struct record *record)
{
	*record = (struct record){ .name = name };
	if (!is_record(bytes))
		return fail_record(name, "it is no release record");
	record->document = take_document((const char *)bytes->at, bytes->length);
	const struct piece *format = member_of(record->document, "format", A_NUMBER);
	if (format != NULL && format->number != RECORD_FORMAT)
		return fail_record(name, "its format is another than this tool's, which is 1");
	if (!is_whole(bytes))
		return fail_record(name, "it isn't as it was written: the SHA-256 at its end is of other bytes");
	if (format == NULL || !parts_in(record))
		return fail_record(name, "it isn't a whole release record");
	return true;
}

/* The same from a file. */
bool load_record(const char *name, struct record *record)
{
	struct bytes bytes;
	*record = (struct record){ .name = name };
	if (!load(name, &bytes))
		return false;
	const bool taken = take_record(name, &bytes, record);
	record->text = bytes;
	return taken;
}

/* All its memory. */
void free_record(struct record *record)
{
	free_document(record->document);
	free(record->steps);
	free(record->text.at);
	*record = (struct record){ .name = record->name };
}
