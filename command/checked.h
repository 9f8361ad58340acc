/*
 * A shipped file held against what it should be: the vendor's image moved to its base (audit), or that
 * image released with sheets (verify). All that is shown of either, in whatever form, is from here.
 */
#ifndef COMMAND_CHECKED_H
#define COMMAND_CHECKED_H

#include "contents.h"
#include "findings.h"
#include "must.h"
#include "naming.h"
#include "owners.h"
#include "record.h"
#include "refusals.h"

/* What the sheets make of one byte of the region; by the audits against the release and the vendor. */
struct settled {
	uint32_t sheet; /* which sets it last, counted from 1; 0 where none does */
	uint32_t entry; /* of that sheet, counted from 0 */
	bool differs;   /* the file has another byte than the release */
	bool changed;   /* the file has another byte than the vendor's image */
};

/* An owner list: its file, and as the library takes it. */
struct owner_list {
	struct named file;
	struct owners owners;
};

/* Who released a sheet, and by which list; no list where whose the settings are has no say. */
struct releaser {
	const struct owner_list *list;
	uint64_t owner;
};

/* The base that most of the file's words agree on, where its base word isn't it: how many of how many. */
struct agreed {
	bool found;
	uint32_t base;
	uint64_t agreeing, words;
};

/* How many notes on its files a check has room for. */
#define MOST_NOTES ((size_t)4)

struct check {
	bool verify;
	struct named vendor, shipped;
	struct named *sheets;
	struct releaser *releasers; /* of each of them */
	size_t sheet_count;
	struct owner_list *lists;
	size_t list_count;
	struct record record; /* no name where sheets, or none, are named in its place */
	char **paths;         /* where its files were found */
	size_t path_count;
	char *vouched;        /* by whose word the vendor's image is the maker's; NULL where by nobody's */
	char *notes[MOST_NOTES]; /* what is to be said of the files */
	size_t note_count;
	bool has_base;        /* the file must be at this base, by --base or the record */
	uint64_t base;
	const struct options *options;
	struct naming naming; /* the maker's names, where they are asked for */
	struct must must;     /* what the shipped file must have, where that is asked for */
	uint32_t number; /* 0 where accepted, or the refusal's, with its index and file */
	uint64_t index;
	const struct named *refused;
	uint8_t reading[PAJURENDA_READ_BYTES];  /* of the vendor's image */
	struct contents contents;               /* what is inside it, its words by position */
	uint8_t moved[PAJURENDA_RELEASE_BYTES]; /* the answer of the move to the shipped base */
	struct bytes reference;                 /* what the file should be */
	struct findings found;                  /* every difference from the reference */
	struct findings from_vendor;            /* of a verify: every one from the vendor's image moved */
	struct agreed agreed;
	struct settled *settled;                /* by offset in the region; NULL in an audit */
	struct named mended;                    /* of a mending: OUT, with its bytes once the library has made them */
	struct named hex;                       /* the same as Intel HEX, where that is asked for */
};

bool load_check(struct check *check, bool verify, char **word, const struct options *options);
enum status judge(struct check *check);
bool is_good(const struct check *check);
bool is_fine(const struct check *check);
bool is_at_base(const struct check *check);
bool is_accounted(const struct check *check);
const char *unchecked_of(const struct check *check);
const char *open_of(const struct check *check);
const char *other_of(const struct check *check);
enum status status_of(const struct check *check);
uint64_t count_of(const struct check *check, size_t field);
const char *verdict_of(const struct check *check);
const char *reference_name(const struct check *check);
const char *required_of(const struct check *check);
void end_check(struct check *check);

/* The file's own parts, for judge. */
enum status refuse_check(struct check *check, uint32_t number, const struct named *file);
struct asking ask_for(const struct check *check, size_t sheet);
enum status settle(struct check *check);
void find_agreed(struct check *check, const struct findings *findings);
void put_agreed(FILE *to, const struct check *check);
bool hold_step(struct check *check, size_t index);

#endif
