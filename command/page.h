/* The page to file: a check as one HTML file, without a script, with nothing to fetch. */
#ifndef COMMAND_PAGE_H
#define COMMAND_PAGE_H

#include <stdio.h>

#include "checked.h"
#include "files.h"
#include "ranges.h"

/* A page that is being written, by its own name; the text is the whole list, NULL where none was made. */
struct page {
	FILE *to;
	const char *name;
	const struct check *check;
	const struct named *text;
};

/* A line made in memory, to become text of the page. */
struct made {
	FILE *line;
	char *at;
	size_t length;
};

/* How many bytes of each kind differ, and how many ranges they are. */
struct tally {
	uint64_t ranges, stray_ranges;
	uint64_t sheets, makers; /* that a sheet sets; of these still as the maker's */
	uint64_t others;         /* settings that no sheet sets */
	uint64_t strays;
};

bool make_page(const struct check *check, const struct named *text, struct output *made);

/* Its parts, each in a file of its own. */
void put_style(FILE *to, const char *name, const char *number);
void put_top(const struct page *page);
void put_sign_off(FILE *to);
void put_about(const struct page *page);
void put_verdict_words(const struct page *page);
void put_verdict(const struct page *page, const struct tally *tally);
void put_files(const struct page *page);
void put_signed_for(const struct page *page);
void put_facts(const struct page *page);
void put_words(const struct page *page);
void put_maps(const struct page *page);
void put_ranges(const struct page *page, const struct tally *tally);
void put_sheets(const struct page *page);
void put_changed_settings(const struct page *page);
void put_page_naming(const struct page *page);
void put_page_must(const struct page *page);
void put_page_names(const struct page *page, const struct change *change, const char *between);
void put_page_number(FILE *to, const uint8_t *bytes, uint64_t length);
uint64_t count_idle(const struct check *check, uint64_t *entries);

/* Small ones that all use. */
bool begin_made(struct made *made);
void end_made(FILE *to, struct made *made);
void put_plural(FILE *to, uint64_t count, const char *one, const char *many);
void put_cut_bytes(FILE *to, const struct bytes *file, uint64_t at, uint64_t length);

#endif
