/* A release with everything that goes with it: files, record, text. */
#ifndef COMMAND_RELEASING_H
#define COMMAND_RELEASING_H

#include "naming.h"
#include "numbers.h"
#include "pajurenda.h"
#include "record.h"
#include "released.h"

/* The files of a release in memory, and what is asked of them. */
struct releasing {
	const struct options *options;
	struct named image, sheet, list;
	struct owners owners;
	struct asking asking;
	struct base base;
	struct bytes before; /* the image as it was */
	uint8_t reading[PAJURENDA_READ_BYTES]; /* of it */
	struct naming naming;
	struct record after;
	const char *out, *hex; /* where they go; the text where one is asked for, or NULL */
	char *record;          /* where the record goes, or NULL */
	char *vouched;         /* by whose word IMAGE is the maker's, or NULL */
};

/* Files of a call by the words that its usage has for them; no name where one isn't given. */
struct role {
	const char *name, *word;
};

bool name_record(struct releasing *r);
bool are_outputs_apart(const struct releasing *r);
bool are_outputs_free(const struct releasing *r);
bool follows_record(struct releasing *r);
bool record_release(const struct releasing *r, struct output *made);

#endif
