/* Checks by a list, a pair a line. */
#ifndef COMMAND_LIST_H
#define COMMAND_LIST_H

#include "checked.h"
#include "text.h"

/* A list being gone through, and how many pairs came to each end. */
struct tour {
	bool verify;
	const char *folder;
	const struct options *options;
	struct text text;
	size_t lines; /* of the list, for who waits */
	size_t inputs; /* files that all pairs share are noted before these */
	uint64_t pairs; /* that a document has */
	uint64_t good, bad, unheld, refused, failed;
	const char *unchecked; /* what the first good pair leaves open */
	enum status worst;
};

enum status run_list(bool verify, const struct options *options);

/* Its document. */
void begin_pairs(const struct tour *tour);
void write_pair(struct tour *tour, const struct check *check, char **name, bool failed);
void end_pairs(const struct tour *tour, uint64_t pairs);

#endif
