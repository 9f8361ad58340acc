/*
 * The files that were read. A document names each with its length and its SHA-256, taken as it was read: some of
 * the bytes are changed later, by a release or where a text is cut into words. Without one a digest is taken when it
 * is asked for, and once.
 */
#define _XOPEN_SOURCE 700

#include "inputs.h"

#include <stdio.h>
#include <stdlib.h>
#include <string.h>

#include "digest.h"
#include "signs.h"

/* A file; one that wasn't read to its end has neither length nor digest. */
struct input {
	char *name;
	const uint8_t *at; /* where it was read to */
	size_t length;
	bool whole, taken;
	char digits[DIGEST_DIGITS + 1];
};

static struct input *inputs;
static size_t count;
static bool wanted;

/* From here on digests are taken as files are read, or not. */
void note_inputs(bool noting)
{
	wanted = noting;
}

/* One more; without memory for it the document has one file less than it should, so it is told as not taken. */
void note_input(const char *name, const struct bytes *file, bool whole)
{
	struct input *more = realloc(inputs, (count + 1) * sizeof *inputs);
	if (more == NULL)
		return;
	inputs = more;
	inputs[count] = (struct input){ .name = strdup(name), .at = file->at, .length = file->length, .whole = whole };
	inputs[count].taken = wanted && whole && find_digest(file, inputs[count].digits);
	count++;
}

/* The last one that was read to where these bytes are: what was there before is gone. NULL where none was. */
static struct input *find_input(const struct bytes *file)
{
	for (size_t i = count; i > 0; i--)
		if (inputs[i - 1].at == file->at)
			return inputs[i - 1].whole && inputs[i - 1].length == file->length ? &inputs[i - 1] : NULL;
	return NULL;
}

/* The digest of a file that is where it was read to, with the bytes that were read; false where it can't be had. */
bool input_digest(const struct bytes *file, char *digits)
{
	struct input *input = find_input(file);
	if (input == NULL)
		return find_digest(file, digits);
	if (!input->taken)
		input->taken = find_digest(file, input->digits);
	memcpy(digits, input->digits, sizeof input->digits);
	return input->taken;
}

size_t count_inputs(void)
{
	return count;
}

/* Those from this one on are another pair's. */
void forget_inputs(size_t from)
{
	while (count > from)
		free(inputs[--count].name);
}

/* An array of them, from this one on; a line for each, or all in one. */
void json_inputs(size_t from, bool lines)
{
	putchar('[');
	for (size_t i = from; i < count; i++) {
		const struct input *one = &inputs[i];
		printf("%s%s{\"file\": ", i == from ? "" : ",", lines ? "\n    " : i == from ? "" : " ");
		put_json_text(stdout, one->name == NULL ? "" : one->name);
		if (one->whole)
			printf(", \"length\": %zu, \"sha256\": ", one->length);
		else
			fputs(", \"length\": null, \"sha256\": ", stdout);
		printf(one->taken ? "\"%s\"}" : "null}", one->digits);
	}
	printf("%s]", lines && count > from ? "\n  " : "");
}
