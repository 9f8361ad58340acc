/*
 * A release's record: the maker's image, and every step since, each with its sheet, its owner list, who
 * released, to which base, and what came of it. Files are named from the record's folder.
 */
#ifndef COMMAND_RECORD_H
#define COMMAND_RECORD_H

#include <stdio.h>

#include "changes.h"
#include "digest.h"
#include "document.h"
#include "files.h"
#include "refusals.h"

#define RECORD_FORMAT 1
#define RECORD_ENDING ".release.json"

/* A file as a record has it; no name where there is none. */
struct filed {
	const char *name;
	uint64_t length;
	char digest[DIGEST_DIGITS + 1];
};

/* One release. */
struct step {
	const char *time, *tool;
	struct filed sheet, owners, names, result, replaced;
	uint64_t owner, before, after;
	const struct piece *entries, *not_walked;
};

/* A record that was read; its texts are the document's. */
struct record {
	const char *name;
	struct bytes text;
	struct piece *document;
	struct filed maker;
	uint8_t identity[8];
	uint64_t revision, extended, base;
	struct step *steps;
	size_t count;
};

/* What a release adds to a record. */
struct adding {
	const struct record *after; /* the record before it, or NULL */
	const char *name;           /* of the record to write */
	struct filed maker;         /* where there is none before it; names as they are from here */
	struct step step;
	const uint8_t *reading;     /* of the image before */
	const struct bytes *before, *sheet;
	const struct names *labels;
};

bool file_of(const char *name, const struct bytes *bytes, struct filed *filed);
bool is_filed_input(const struct filed *filed, const struct bytes *file, char *digits);
bool is_filed(const struct filed *filed, const struct bytes *bytes, char *digits);
const char *text_in(const struct piece *object, const char *name);
bool hex_in(const struct piece *object, const char *name, uint64_t *value);
bool has_settings(const struct record *record, const struct bytes *image);
bool is_record(const struct bytes *bytes);
bool take_record(const char *name, const struct bytes *bytes, struct record *record);
bool load_record(const char *name, struct record *record);
void free_record(struct record *record);
bool make_record(const struct adding *adding, struct output *made);

#endif
