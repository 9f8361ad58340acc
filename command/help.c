/* The subcommands and what the command says of itself. */
#include "help.h"

#include <inttypes.h>
#include <stdbool.h>
#include <stdio.h>
#include <string.h>

#include "help_texts.h"
#include "pajurenda.h"

/* The identity of the kit that proved the library, given where the command is built. */
#ifndef PAJURENDA_KIT
#define PAJURENDA_KIT "unknown kit"
#endif

/* The SHA-256 of the archive that the command is built over, given there too. */
#ifndef PAJURENDA_ARCHIVE
#define PAJURENDA_ARCHIVE "unknown archive"
#endif

/* The room for a refusal's sentence in a line. */
#define LINE ((size_t)70)

static const struct command commands[] = {
	{ "read", { "IMAGE" }, MODULES | WORDS | JSON, do_read,
	  "[--modules] [--words] [--json] IMAGE", NULL,
	  "shows what an image's header says, its modules and the words of a move", read_help },
	{ "release", { "IMAGE", "SHEET", "BASE", "OUT" },
	  OWNERS | OWNER | AS_HEX | REPLACE | RECORD | NO_RECORD | AFTER | VENDOR_IS | NAMES | STRICT | JSON, do_release,
	  "--owners LIST --owner N [--after RECORD] [--record FILE | --no-record]\n"
	  "                         [--vendor-sha256 HEX] [--names FILE] [--hex FILE] [--json] [--replace]\n"
	  "                         IMAGE SHEET BASE OUT", NULL,
	  "writes the image with a sheet's settings, moved to a base", release_help },
	{ "sheet empty", { "IMAGE", "OUT" }, REPLACE | JSON, do_sheet_empty, "[--json] [--replace] IMAGE OUT", NULL,
	  "writes the sheet that sets nothing", sheet_help },
	{ "sheet start", { "IMAGE", "TEXT" }, NAMES | STRICT | JSON, do_sheet_start,
	  "[--json] [--names FILE] IMAGE TEXT",
	  NULL, "begins a text for an image, with names every setting", sheet_help },
	{ "sheet make", { "IMAGE", "TEXT", "OUT" }, NAMES | STRICT | REPLACE | JSON, do_sheet_make,
	  "[--json] [--names FILE] [--replace] IMAGE TEXT OUT", NULL, "writes the sheet that a text describes",
	  sheet_help },
	{ "sheet show", { "SHEET", "[IMAGE]" }, NAMES | STRICT | JSON, do_sheet_show,
	  "[--json] [--names FILE] SHEET [IMAGE]", NULL, "shows a sheet as such a text", sheet_help },
	{ "sheet fold", { "SHEET..", "OUT" }, NAMES | STRICT | WITH_IMAGE | REPLACE | JSON, do_sheet_fold,
	  "[--json] [--names FILE --image IMAGE] [--replace] SHEET.. OUT", NULL,
	  "writes one sheet that sets what old ones set together", sheet_help },
	{ "must show", { "FILE", "IMAGE" }, NAMES | STRICT | JSON, do_must_show,
	  "[--json] [--names FILE] FILE IMAGE", NULL,
	  "explains what a shipped file must have, for --must", must_help },
	{ "owners all", { "IMAGE", "OUT" }, REPLACE | JSON, do_owners_all, "[--json] [--replace] IMAGE OUT", NULL,
	  "writes the list that gives every setting to owner 1", owners_help },
	{ "owners show", { "LIST", "IMAGE" }, NAMES | STRICT | JSON, do_owners_show,
	  "[--json] [--names FILE] LIST IMAGE", NULL,
	  "shows an owner list beside an image's region", owners_help },
	{ "setting", { "IMAGE", "OFFSET", "[LENGTH]" }, NAMES | STRICT | JSON, do_setting,
	  "[--json] [--names FILE] IMAGE OFFSET LENGTH", "[--json] --names FILE IMAGE NAME",
	  "shows one setting", setting_help },
	{ "audit", { "VENDOR", "SHIPPED" },
	  BYTES | RANGES | JSON | REPORT | TEXT | LIST | REPORTS | NAMES | STRICT | MUST | REPLACE |
	  VENDOR_IS | QUIET | NOTE | KNOWN_BY, do_audit,
	  "[--bytes] [--ranges] | [--json] | [-q] [--report FILE] [--text FILE]\n"
	  "                       [--number TEXT] [--note TEXT] [--names FILE] [--must FILE]\n"
	  "                       [--vendor-sha256 HEX] [--replace] VENDOR SHIPPED",
	  "[--must FILE] [--note TEXT] [--json] --list FILE [--reports FOLDER] [--replace]",
	  "lists every difference of a shipped file, and says whether all are settings",
	  audit_help },
	{ "verify", { "VENDOR", "SHEET..", "SHIPPED" },
	  JSON | REPORT | TEXT | LIST | REPORTS | OWNERS | OWNER | NAMES | STRICT | MUST | REPLACE |
	  AT_BASE | VENDOR_IS | QUIET | NOTE | KNOWN_BY, do_verify,
	  "[--json] [--report FILE] [--text FILE] [--number TEXT] [--note TEXT]\n"
	  "                        [--names FILE] [--must FILE] [--replace] RECORD SHIPPED\n"
	  "       pajurenda verify [--owners LIST] [--base BASE] [..] VENDOR [--owner N] SHEET.. SHIPPED",
	  "[--owners LIST --owner N] [--base BASE] [--must FILE] [--note TEXT] [--json] --list FILE\n"
	  "                        [--reports FOLDER] [--replace]",
	  "says whether a shipped file is what a release, by its record or sheets, makes", verify_help },
	{ "mend", { "VENDOR", "SHIPPED", "OUT" },
	  BYTES | JSON | REPORT | TEXT | AS_HEX | NAMES | STRICT | REPLACE | VENDOR_IS | QUIET | NOTE | KNOWN_BY, do_mend,
	  "[--bytes] | [--json] | [-q] [--report FILE] [--text FILE] [--hex FILE]\n"
	  "                      [--number TEXT] [--note TEXT] [--names FILE] [--vendor-sha256 HEX]\n"
	  "                      [--replace] VENDOR SHIPPED OUT", NULL,
	  "writes a shipped file with every stray byte put back, settings kept", mend_help },
	{ "hex export", { "IMAGE", "OUT" }, AT_BASE | JSON | REPLACE, do_hex_export,
	  "[--base BASE] [--json] [--replace] IMAGE OUT", NULL,
	  "writes an image as Intel HEX, for a flash programmer", hex_help },
	{ "hex import", { "TEXT", "OUT" }, JSON | REPLACE, do_hex_import,
	  "[--json] [--replace] TEXT OUT", NULL,
	  "writes the image that such a text is of", hex_help },
	{ "history", { "FOLDER" }, JSON | REPORT | REPLACE, do_history, "[--json] [--report FILE] [--replace] FOLDER", NULL,
	  "shows what each board of a folder's records has, and where they differ", history_help },
	{ "split", { "FILE", "FOLDER" }, JSON | REPLACE, do_split, "[--json] [--replace] FILE FOLDER", NULL,
	  "writes each component of a maker's file as a file of its own", split_help },
	{ "join", { "FILE", "COMPONENT..", "OUT" }, JSON | REPLACE, do_join, "[--json] [--replace] FILE COMPONENT.. OUT",
	  NULL, "puts released components back in their places in a copy of it", split_help },
	{ "handoff", { "DUMP" }, JSON, do_handoff, "[--json] DUMP", NULL,
	  "shows the hand-off blocks that firmware left", handoff_help },
	{ "map", { "DUMP" }, JSON, do_map, "[--json] DUMP", NULL,
	  "shows the free memory by these blocks, and what was taken away", map_help },
	{ "place", { "DUMP", "IMAGE|SIZE" }, JSON, do_place, "[--json] DUMP IMAGE|SIZE", NULL,
	  "shows the lowest base with room for an image there", place_help },
	{ "station", { "LOG" }, JSON, do_station, "[--json] LOG", NULL,
	  "follows a boot log and says which call came out of order", station_help },
};

#define COMMANDS (sizeof commands / sizeof commands[0])

/* The first words of the commands that have two. */
static const struct group groups[] = {
	{ "sheet", "empty, start, make, show or fold is missing",
	  "\" is none of empty, start, make, show and fold" },
	{ "must", "show is missing", "\" is not show" },
	{ "owners", "all or show is missing", "\" is neither all nor show" },
	{ "hex", "export or import is missing", "\" is neither export nor import" },
};

/* Commands that were, and what to type instead. */
static const struct {
	const char *name, *instead;
} gone[] = {
	{ "move", "type release --owners LIST --owner N IMAGE SHEET BASE OUT; to set nothing, with "
		  "the SHEET that sheet empty IMAGE SHEET writes" },
	{ "apply", "type release --owners LIST --owner N IMAGE SHEET BASE OUT; to move nothing, "
		   "with keep for BASE" },
};

/* What to type instead of a command that is gone; NULL for any other word. */
const char *find_instead(const char *word)
{
	for (size_t i = 0; i < sizeof gone / sizeof gone[0]; i++)
		if (strcmp(word, gone[i].name) == 0)
			return gone[i].instead;
	return NULL;
}

/* How many words a subcommand's name has. */
int count_words(const struct command *command)
{
	return strchr(command->name, ' ') == NULL ? 1 : 2;
}

/* A name is the first word, or the first two with a blank between them. */
static bool is_named(const char *name, char **word)
{
	const char *blank = strchr(name, ' ');
	if (blank == NULL)
		return strcmp(name, word[0]) == 0;
	const size_t length = (size_t)(blank - name);
	return strlen(word[0]) == length && strncmp(name, word[0], length) == 0 &&
	       word[1] != NULL && strcmp(blank + 1, word[1]) == 0;
}

/* The subcommand that words start with; NULL where there is none. */
const struct command *find_command(char **word)
{
	for (size_t i = 0; i < COMMANDS; i++)
		if (is_named(commands[i].name, word))
			return &commands[i];
	return NULL;
}

/* The group whose first word this is; NULL where there is none. */
const struct group *find_group(const char *word)
{
	for (size_t i = 0; i < sizeof groups / sizeof groups[0]; i++)
		if (strcmp(word, groups[i].name) == 0)
			return &groups[i];
	return NULL;
}

/* The first subcommand of a group; NULL where there is none. */
const struct command *first_of_group(const char *word)
{
	const size_t length = strlen(word);
	for (size_t i = 0; i < COMMANDS; i++)
		if (strncmp(commands[i].name, word, length) == 0 && commands[i].name[length] == ' ')
			return &commands[i];
	return NULL;
}

/* One refusal: number, name and rule, in lines of at most 88 characters. */
static void show_refusal(uint32_t number)
{
	const char *rest = pajurenda_sentence(number);
	printf("%4d  %-10s  ", (int)number, pajurenda_name(number));
	while (strlen(rest) > LINE) {
		size_t end = LINE;
		while (end > 0 && rest[end] != ' ')
			end--;
		printf("%.*s\n%18s", (int)end, rest, "");
		rest += end + 1;
	}
	puts(rest);
}

/* The refusals from one number up to another. */
static void show_refusals(uint32_t first, uint32_t last)
{
	for (uint32_t i = first; i <= last; i++)
		show_refusal(i);
}

/* The usage of every subcommand that has this help, or of all where it is NULL. */
static void show_usage(const char *help)
{
	const char *start = "usage:";
	for (size_t i = 0; i < COMMANDS; i++) {
		if (help != NULL && commands[i].help != help)
			continue;
		printf("%s pajurenda %s %s\n", start, commands[i].name, commands[i].usage);
		start = "      ";
		if (commands[i].also != NULL)
			printf("%s pajurenda %s %s\n", start, commands[i].name, commands[i].also);
	}
}

/* The help on all of it, with the names of the refusals. */
static void show_general(void)
{
	show_usage(NULL);
	puts("       pajurenda help [COMMAND]\n       pajurenda --help | --version\n");
	for (size_t i = 0; i < COMMANDS; i++)
		printf("%-11s  %s\n", commands[i].name, commands[i].brief);
	puts("help         shows this, or the help of one command (also: COMMAND --help)");
	fputs(general_help, stdout);
	show_refusals(PAJURENDA_LENGTH, PAJURENDA_ROOM);
	show_refusals(PAJURENDA_RESERVED, PAJURENDA_FOLDED);
	show_refusals(PAJURENDA_BLOCK, PAJURENDA_NOWHERE);
	show_refusals(PAJURENDA_ORDER, PAJURENDA_UNKNOWN);
	show_refusal(PAJURENDA_TEXT);
	show_refusal(PAJURENDA_SPACE);
	puts("\nAn image is judged in the order 1 to 12, 22, 13, 14, 25, 26, 27, a release then 28, 15, 23,\n"
	     "16, 17, 24, 18, a mending 28, 19, 18, an export 1, 18, a fold 15, 16, 29, a place 30 to 33,\n"
	     "34, 35, 36, 37; the first that applies is told. The lists and outputs here are as long as they must be,\n"
	     "so 20 and 53 are for other callers. Of an edition 1 image (header revision 1) 1 to 6 and 8 are judged; read\n"
	     "and audit take it, byte for byte.");
}

/* The help on one subcommand, or on all where it is NULL. */
enum status show_help(const struct command *command)
{
	if (command == NULL) {
		show_general();
		return FINE;
	}
	show_usage(command->help);
	printf("\n%s", command->help);
	if (command->run == do_release)
		fputs(out_help, stdout);
	if (command->help == sheet_help || command->help == owners_help || command->help == hex_help ||
	    command->help == split_help)
		fputs(made_out_help, stdout);
	if ((command->options & NAMES) != 0 || command->help == sheet_help || command->help == owners_help)
		fputs(names_help, stdout);
	if (command->run == do_audit || command->run == do_verify)
		printf("%s%s", check_help,
		       command->run == do_audit ? audit_status_help : verify_status_help);
	else if (command->run != do_station && command->run != do_history)
		fputs(status_help, stdout);
	return FINE;
}

/* The version of the command and of the library in it, what proved that, and the archive by its digest. */
enum status show_version(void)
{
	const uint32_t library = pajurenda_version();
	puts("pajurenda " PAJURENDA_VERSION);
	printf("library %" PRIu32 ".%" PRIu32 ".%" PRIu32 "\n", library >> 16, library >> 8 & 255, library & 255);
	puts("proved with " PAJURENDA_KIT);
	puts("archive " PAJURENDA_ARCHIVE);
	return FINE;
}

/* The archive's SHA-256. */
const char *archive_digest(void)
{
	return PAJURENDA_ARCHIVE;
}

/* What proved it. */
const char *kit_name(void)
{
	return PAJURENDA_KIT;
}
