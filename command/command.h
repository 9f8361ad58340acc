/* What the command's files share: exit status, bytes in memory, the subcommands. */
#ifndef COMMAND_H
#define COMMAND_H

#include <stddef.h>
#include <stdint.h>

/* Exit status. */
enum status { FINE = 0, UNEXPLAINED = 1, FAILED = 2 };

/* The options, as bits. */
enum option {
	HELP = 1, VERSION = 2, BYTES = 4, RANGES = 8, WORDS = 16, JSON = 32, OWNERS = 64, OWNER = 128,
	REPORT = 256, TEXT = 512, LIST = 1024, REPORTS = 2048, MODULES = 4096, NAMES = 8192,
	STRICT = 16384, MUST = 32768, AT_BASE = 65536, AS_HEX = 131072, REPLACE = 262144,
	RECORD = 524288, NO_RECORD = 1048576, AFTER = 2097152, VENDOR_IS = 4194304, QUIET = 8388608,
	SECONDS = 1 << 24, NOTE = 1 << 25, KNOWN_BY = 1 << 26, WITH_IMAGE = 1 << 27
};

/* Where an --owner stands: after so many words of the command's own. */
struct owner_at {
	const char *value;
	size_t words;
};

/* The options of a command line, and the values of those that have one; NULL where it isn't given. */
struct options {
	unsigned given;
	const char *owners, *owner;
	const char *report, *text, *list, *reports;
	const char *names, *must;
	const char *base, *hex;
	const char *image;
	const char *record, *after, *vendor;
	struct owner_at *owner_at; /* every --owner in its order; owner is the first */
	size_t owner_count;
	const char *seconds, *note, *number;
	const char *out; /* of a mending: where the mended file goes */
};

/* A file's bytes in memory; never at NULL once loaded, even where empty. */
struct bytes {
	uint8_t *at;
	size_t length;
};

/* A subcommand, of one word or two: the words and options it takes, and what it says of itself. */
struct command {
	const char *name;
	const char *words[5]; /* the words' names, up to a NULL; one in brackets may be missing, one
				 with dots stands for one or more; with --list there are none */
	unsigned options;
	enum status (*run)(char **word, const struct options *options);
	const char *usage;
	const char *also; /* another form of use, or NULL */
	const char *brief;
	const char *help;
};

enum status do_read(char **word, const struct options *options);
enum status do_release(char **word, const struct options *options);
enum status do_sheet_empty(char **word, const struct options *options);
enum status do_sheet_start(char **word, const struct options *options);
enum status do_sheet_make(char **word, const struct options *options);
enum status do_sheet_show(char **word, const struct options *options);
enum status do_sheet_fold(char **word, const struct options *options);
enum status do_must_show(char **word, const struct options *options);
enum status do_owners_all(char **word, const struct options *options);
enum status do_owners_show(char **word, const struct options *options);
enum status do_setting(char **word, const struct options *options);
enum status do_audit(char **word, const struct options *options);
enum status do_verify(char **word, const struct options *options);
enum status do_mend(char **word, const struct options *options);
enum status do_handoff(char **word, const struct options *options);
enum status do_map(char **word, const struct options *options);
enum status do_place(char **word, const struct options *options);
enum status do_hex_export(char **word, const struct options *options);
enum status do_hex_import(char **word, const struct options *options);
enum status do_history(char **word, const struct options *options);
enum status do_split(char **word, const struct options *options);
enum status do_join(char **word, const struct options *options);
enum status do_station(char **word, const struct options *options);

#endif
