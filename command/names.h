/*
 * Names of settings: from a maker's BSF, from its YAML form, or from a text of our own. What a file
 * says is put beside bytes that the library hands out; nothing here judges an image.
 */
#ifndef COMMAND_NAMES_H
#define COMMAND_NAMES_H

#include <stdbool.h>
#include <stddef.h>
#include <stdint.h>
#include <stdio.h>

/* The longest name, and the longest display name or words of a choice, in bytes. */
#define MOST_NAME ((size_t)255)

/* How many names are told where one is misspelt, and how many defaults where they differ. */
#define NEAREST ((size_t)3)
#define FIRST_DIFFERENT ((size_t)5)

/* The three forms; which one a file has is seen from its contents. */
enum names_form { NAMES_BSF, NAMES_YAML, NAMES_TEXT };

/* The image that names are wanted for, from the library's reading; the mark is the region's first
   eight bytes, the size is z. */
struct names_for {
	uint8_t mark[8];
	uint32_t size;
	uint8_t identity[8];
	uint64_t revision, extended;
};

/* A choice of a setting: a value, and the words for it. */
struct choice {
	uint64_t value;
	const char *words;
};

/* A setting that has a name. Its texts end with 0 and hold nothing that a terminal would act on. */
struct label {
	const char *name;  /* as the maker writes it, without the $ of a BSF */
	const char *brief; /* its end, after a token space and _; the same where it has none */
	const char *title; /* the display name; NULL where there is none */
	uint32_t offset;   /* in the region */
	uint32_t length;   /* in bytes, at least 1 */
	const uint8_t *given;        /* the default, of that length; NULL where there is none */
	const struct choice *choice; /* in the file's order */
	size_t choices;
	size_t line; /* where it stands in the file, from 1 */
};

/* The names of one region in order of offset; none lies over another. */
struct names {
	enum names_form form;
	const struct label *label;
	size_t count;
	size_t passed, passed_line;    /* what was passed over, and the first one's line */
	const struct label **by_name;  /* for looking up, as what follows */
	const struct label **by_brief;
	void *kept;
};

/* Why a file is refused. */
enum names_fault {
	NAMES_NO_FORM, /* it is none of the three */
	NAMES_NO_MARK, /* no block has the region's mark */
	NAMES_OUTSIDE, /* a name lies outside 0..z-1 */
	NAMES_OTHER,   /* a text for another identity, revision or extended number */
	NAMES_BROKEN,  /* a statement that can't be followed, where offsets hang on it */
	NAMES_NO_MEMORY
};

/* The refusal: the line it is at, 0 for none, and a sentence for people without a line feed. */
struct names_problem {
	enum names_fault fault;
	size_t line;
	char text[400];
};

/* What came of looking for something by its name. */
enum names_sought { NAME_FOUND, NAME_UNKNOWN, NAME_SEVERAL };

/* The region's bytes at first..end-1, as the library handed them out; at[0] is the one at first. */
struct settings {
	const uint8_t *at;
	uint32_t first, end;
};

/* Defaults that aren't what is found: how many, of how many that lie within the settings, and the
   first of them. */
struct names_differing {
	size_t differ, compared;
	const struct label *first[FIRST_DIFFERENT];
};

/* The names in a file's bytes that fit the image; false where it is refused, and then nothing is
   kept. */
bool names_read(const uint8_t *file, size_t length, const struct names_for *image,
		struct names *names, struct names_problem *why);
void names_free(struct names *names);

/* By the whole name, or by its brief end where one name alone has it. */
enum names_sought names_called(const struct names *names, const char *word,
			       const struct label **found);
/* The name that holds an offset of the region, NULL where none does. */
const struct label *names_at(const struct names *names, uint32_t offset);
/* The nearest to a misspelt one, the best first; how many there are. */
size_t names_nearest(const struct names *names, const char *word, const struct label **nearest);

/* The words for a value, NULL where there are none; the value for words, as the setting's bytes. */
const char *names_words(const struct label *label, const uint8_t *bytes);
enum names_sought names_value(const struct label *label, const char *words, uint8_t *bytes);
/* A number as the setting's bytes; false where it doesn't fit. */
bool names_number(const struct label *label, uint64_t number, uint8_t *bytes);

struct names_differing names_defaults_differ(const struct names *names,
					     const struct settings *settings);

/* BypassRelay ("Bypass relay at restart") */
void names_put_label(FILE *to, const struct label *label);
/* 01 Enabled; the words in quotes where they could be read as a number, bytes or a comment. */
void names_put_value(FILE *to, const struct label *label, const uint8_t *bytes);
bool names_needs_quotes(const char *words);
/* What the reading passed over, in one line with the file's name; no line where that is nothing. */
void names_put_passed(FILE *to, const char *file, const struct names *names);
/* Why a file is refused, in one line with the file's name and the line in it. */
void names_put_problem(FILE *to, const char *file, const struct names_problem *why);
/* All of it as a text of our own, which reads back to the same. */
void names_put_text(FILE *to, const struct names *names, const struct names_for *image);

#endif
