/*
 * Whether a file is the maker's image that it is given as: --vendor-sha256 says its digest, a text beside it, as makers
 * ship them, says it too. Another file is refused before anything else is said of it.
 */
#define _XOPEN_SOURCE 700

#include "vouched.h"

#include <stdlib.h>
#include <string.h>

#include "digest.h"
#include "files.h"
#include "inputs.h"
#include "messages.h"
#include "paths.h"
#include "record.h"
#include "text.h"

/* What the maker's text of a digest is named after its image. */
#define ENDING ".sha256"

/* A digest's digits, small or capital. */
static bool are_digits(const char *text, size_t length)
{
	return length == DIGEST_DIGITS && strspn(text, "0123456789abcdefABCDEF") >= DIGEST_DIGITS;
}

/* The same digest, whatever the letters' size. */
static bool is_equal(const char *one, const char *other)
{
	for (size_t i = 0; i < DIGEST_DIGITS; i++)
		if ((one[i] | 32) != (other[i] | 32))
			return false;
	return true;
}

/* --vendor-sha256 has a digest after it, where it is given; false after a message. */
bool is_digest(const char *command, const struct options *options)
{
	const char *digits = options->vendor;
	if (digits == NULL || are_digits(digits, strlen(digits)))
		return true;
	fail_usage(command, "--vendor-sha256 \"", digits, "\" is no SHA-256: write its 64 hex digits");
	return false;
}

/* The file isn't the one that was meant. */
static bool fail_vouched(const char *command, const struct named *image, const char *by, const char *digits,
			 const char *wanted)
{
	fprintf(stderr, "pajurenda: %s: ", command);
	say_name(image->name);
	fputs(" isn't the maker's image by ", stderr);
	say_name(by);
	fprintf(stderr, ": its SHA-256 is %s, not %.*s\n", digits, DIGEST_DIGITS, wanted);
	return false;
}

/* The file of a digest's line: after it, behind a star where it was taken as bytes; empty where there is none. */
static char *file_after(char *line)
{
	char *name = line + DIGEST_DIGITS;
	name += strspn(name, " \t");
	return name + (*name == '*');
}

/* The digest that a text has of a file: in the line that names it, or in the only line; NULL where there is none. */
static const char *find_line(struct text *text, const char *name)
{
	const char *only = NULL;
	size_t count = 0;
	char *line;
	while ((line = next_line(text)) != NULL) {
		if (!are_digits(line, strcspn(line, " \t")))
			continue;
		if (strcmp(last_name(file_after(line)), last_name(name)) == 0)
			return line;
		only = line;
		count++;
	}
	return count == 1 ? only : NULL;
}

/* The text beside the image has its digest; false after a message. One without a digest of it vouches for nothing. */
static bool holds_text(const char *command, const struct named *image, const char *digits, struct named *beside, char **by)
{
	struct text text = text_of(beside->name, &beside->bytes);
	const char *wanted = find_line(&text, image->name);
	if (wanted == NULL) {
		fprintf(stderr, "pajurenda: %s: ", command);
		say_name(beside->name);
		fputs(" has no SHA-256 of this image, so it vouches for nothing\n", stderr);
		return true;
	}
	if (!is_equal(wanted, digits))
		return fail_vouched(command, image, beside->name, digits, wanted);
	if (*by == NULL)
		*by = with_ending(beside->name, "");
	return true;
}

/* The image is the one that was meant, by the option and by the text beside it, where there is one; false after a message. */
static bool is_meant(const char *command, const struct options *options, const struct named *image,
		     struct named *beside, char **by)
{
	char digits[DIGEST_DIGITS + 1];
	if (!input_digest(&image->bytes, digits)) {
		fprintf(stderr, "pajurenda: %s: ", command);
		say_name(image->name);
		fputs(": its SHA-256 can't be had, so nothing says that it is the maker's image\n", stderr);
		return false;
	}
	if (options->vendor != NULL && !is_equal(options->vendor, digits))
		return fail_vouched(command, image, "--vendor-sha256", digits, options->vendor);
	if (options->vendor != NULL && *by == NULL)
		*by = with_ending("--vendor-sha256", "");
	return beside->bytes.at == NULL || holds_text(command, image, digits, beside, by);
}

/* The same, and by whose word, to be freed, where there is a word. The text beside the image is read once. */
bool vouch_for(const char *command, const struct options *options, const struct named *image, char **by)
{
	char *name = with_ending(image->name, ENDING);
	struct named beside = { .name = name };
	const bool there = name != NULL && load_quietly(name, &beside.bytes) && end_text(name, &beside.bytes);
	const bool meant = (options->vendor == NULL && !there) || is_meant(command, options, image, &beside, by);
	free(beside.bytes.at);
	free(name);
	return meant;
}

/* The maker's image of a record is the one that was meant; false after a message. */
bool holds_maker(const struct record *record, const char *digits)
{
	const struct named maker = { .name = record->maker.name };
	return is_equal(record->maker.digest, digits) ||
	       fail_vouched("release", &maker, "--vendor-sha256", record->maker.digest, digits);
}

/* Whose word it is; nothing where there is none. */
void put_voucher(FILE *to, const char *by)
{
	if (by == NULL)
		return;
	fputs("maker's image by ", to);
	put_name(to, by);
	fputc('\n', to);
}
