/*
 * audit --list and verify --list: a pair a line of a text, each told in a line, a page of each in a
 * folder where that is asked for. A pair that can't be checked stops none of the others.
 */
#define _XOPEN_SOURCE 700

#include "list.h"

#include <errno.h>
#include <inttypes.h>
#include <stdio.h>
#include <stdlib.h>
#include <string.h>
#include <sys/stat.h>
#include <unistd.h>

#include "checking.h"
#include "clock.h"
#include "edition.h"
#include "files.h"
#include "inputs.h"
#include "json.h"
#include "messages.h"
#include "page.h"
#include "vouched.h"

/* The most names in a line, and the room for a page's own name. */
#define MOST_NAMES 256
#define MOST_LAST 64

/* ---- a line's names ---- */

/* A name without the blanks around it. */
static char *trim(char *word)
{
	char *end = word + strlen(word);
	word += strspn(word, " ");
	while (end > word && end[-1] == ' ')
		*--end = 0;
	return word;
}

/* The names of a line, which ends where a word starts with `#`; tabs alone separate where there is one,
   so that names may have blanks. How many there are, or MOST_NAMES where they are too many. */
static int split_line(char *line, char **name)
{
	const char *blanks = strchr(line, '\t') == NULL ? " " : "\t";
	int count = 0;
	for (char *word = strtok(line, blanks); word != NULL; word = strtok(NULL, blanks)) {
		word = trim(word);
		if (*word == '#' || count == MOST_NAMES)
			break;
		if (*word != 0)
			name[count++] = word;
	}
	name[count] = NULL;
	return count;
}

/* The line has as many names as a check wants; false after a message. */
static bool is_enough(const struct tour *tour, int count)
{
	if (tour->verify ? count >= 2 && count < MOST_NAMES : count == 2)
		return true;
	if (count == MOST_NAMES)
		fail_line(&tour->text, "too many names");
	else
		fail_line(&tour->text, tour->verify
					       ? "two names or more are wanted: RECORD SHIPPED, or VENDOR SHEET.. SHIPPED"
					       : "two names are wanted: VENDOR SHIPPED, or RECORD SHIPPED");
	return false;
}

/* ---- a pair's page ---- */

/* FOLDER/line-N-SHIPPED.html, of the shipped file's last name what is plain in a name. */
static char *name_page(const struct tour *tour, const char *shipped)
{
	static const char plain[] = "ABCDEFGHIJKLMNOPQRSTUVWXYZabcdefghijklmnopqrstuvwxyz0123456789._-";
	const char *last = strrchr(shipped, '/') == NULL ? shipped : strrchr(shipped, '/') + 1;
	char short_name[MOST_LAST + 1] = "";
	const size_t room = strlen(tour->folder) + MOST_LAST + 40;
	char *name = malloc(room);
	strncat(short_name, last, MOST_LAST);
	for (char *c = short_name; *c != 0; c++)
		*c = strchr(plain, *c) == NULL ? '_' : *c;
	if (name != NULL)
		snprintf(name, room, "%s/line-%zu-%s.html", tour->folder, tour->text.line, short_name);
	return name;
}

/* The page of a check that was judged; true where none is wanted, false after a message. */
static bool save_in_folder(const struct tour *tour, const struct check *check)
{
	if (tour->folder == NULL)
		return true;
	char *name = name_page(tour, check->shipped.name);
	struct output page = { .name = name };
	const bool saved = name != NULL && is_apart(check, name) && make_page(check, NULL, &page) &&
			   save_together(&page, 1);
	if (name == NULL)
		fail_no_memory(tour->folder);
	free(page.bytes.at);
	free(name);
	return saved;
}

/* ---- a pair ---- */

/* Where standard error is a terminal, how far it is, on a line that whatever is told next takes over. */
static void tell_progress(const struct tour *tour)
{
	if (isatty(STDERR_FILENO) == 0)
		return;
	fprintf(stderr, "\033[Kline %zu of %zu\r", tour->text.line, tour->lines);
	fflush(stderr);
}

/* The last of it taken away. */
static void end_progress(void)
{
	if (isatty(STDERR_FILENO) != 0)
		fputs("\033[K", stderr);
}

/* What came of a pair, before its names. */
static void show_outcome(const struct check *check)
{
	if (check->number != PAJURENDA_ACCEPTED) {
		printf("refused %" PRIu32, check->number);
		return;
	}
	const char *required = required_of(check);
	printf("%s%s%s base 0x%08" PRIX64 " settings %" PRIu64 " strays %" PRIu64 " bits %" PRIu64,
	       verdict_of(check), required == NULL ? "" : ", ", required == NULL ? "" : required,
	       count_of(check, PAJURENDA_AUDIT_BASE),
	       count_of(check, PAJURENDA_AUDIT_SETTINGS), count_of(check, PAJURENDA_AUDIT_STRAYS),
	       count_of(check, PAJURENDA_AUDIT_BITS));
	if (is_older(check->reading))
		fputs(" edition 1", stdout);
}

/* The outcome counted; the worst one is the whole tour's. What is left open of edition 1 is told where nothing else is. */
static void count_outcome(struct tour *tour, const struct check *check, bool failed)
{
	const bool refused = check->number != PAJURENDA_ACCEPTED;
	const enum status status = failed ? FAILED : status_of(check);
	tour->failed += failed;
	tour->refused += !failed && refused;
	tour->good += status != FAILED && is_good(check);
	tour->bad += status != FAILED && !is_good(check);
	if (status != FAILED && unchecked_of(check) != NULL &&
	    (tour->unchecked == NULL || tour->unchecked == older_not_checked))
		tour->unchecked = unchecked_of(check);
	tour->unheld += status != FAILED && !is_held(&check->must);
	if (status > tour->worst)
		tour->worst = status;
}

/* A line of output: the list's line, what came of it, and the names. */
static void show_pair(const struct tour *tour, const struct check *check, char **name, bool failed)
{
	printf("line %zu ", tour->text.line);
	if (failed)
		fputs("failed", stdout);
	else
		show_outcome(check);
	for (; *name != NULL; name++) {
		putchar(' ');
		put_name(stdout, *name);
	}
	putchar('\n');
}

/* A pair told: an object of the document, or a line. */
static void tell_pair(struct tour *tour, const struct check *check, char **name, bool failed)
{
	if (is_json())
		write_pair(tour, check, name, failed);
	else
		show_pair(tour, check, name, failed);
}

/* One pair, whatever comes of it. */
static void take_pair(struct tour *tour, char **name)
{
	struct check check = { .verify = tour->verify };
	char what[40];
	snprintf(what, sizeof what, "%s: line %zu of the list", tour->verify ? "verify" : "audit", tour->text.line);
	start_clock(what);
	forget_inputs(tour->inputs);
	bool failed = !load_check(&check, tour->verify, name, tour->options) ||
		      (judge(&check) != FINE && check.number == PAJURENDA_ACCEPTED);
	if (!failed) {
		note_files(&check);
		say_notes(&check);
	}
	failed = failed || !save_in_folder(tour, &check);
	count_outcome(tour, &check, failed);
	tell_pair(tour, &check, name, failed);
	fflush(stdout); /* an image that takes too long ends the command, and none of these lines may be lost */
	end_check(&check);
}

/* ---- the list ---- */

/* A line of the list; one without names is passed. */
static void take_line(struct tour *tour, char *line)
{
	char *name[MOST_NAMES + 1];
	const struct check none = { .verify = tour->verify };
	const bool clean = is_clean(&tour->text, line);
	const int count = split_line(line, name);
	if (clean && count == 0)
		return;
	tell_progress(tour);
	if (clean && is_enough(tour, count)) {
		take_pair(tour, name);
		return;
	}
	count_outcome(tour, &none, true);
	tell_pair(tour, &none, name, true);
}

/* The counts of all, and the worst status. */
static enum status end_tour(const struct tour *tour)
{
	const uint64_t pairs = tour->good + tour->bad + tour->refused + tour->failed;
	if (pairs == 0)
		return fail_usage(tour->verify ? "verify" : "audit", "no pair is named in ",
				  tour->text.name, "");
	if (is_json()) {
		end_pairs(tour, pairs);
		return tour->worst;
	}
	printf("pairs %" PRIu64 " %s %" PRIu64 " %s %" PRIu64, pairs,
	       tour->verify ? "as released" : "explained", tour->good,
	       tour->verify ? "not as released" : "unexplained", tour->bad);
	if (tour->options->must != NULL)
		printf(" not as required %" PRIu64, tour->unheld);
	printf(" refused %" PRIu64 " failed %" PRIu64 "\n", tour->refused, tour->failed);
	if (tour->unchecked != NULL)
		printf("not checked %s\n", tour->unchecked);
	return tour->worst;
}

/* How many lines a text has, at most so many pairs. */
static size_t count_lines(const struct bytes *text)
{
	size_t count = 1;
	for (size_t i = 0; i < text->length; i++)
		count += text->at[i] == '\n' && i + 1 < text->length;
	return count;
}

/* The pages' folder is one; false after a message. */
static bool is_folder(const char *name)
{
	struct stat about;
	const int reason = stat(name, &about) != 0 ? errno : S_ISDIR(about.st_mode) ? 0 : ENOTDIR;
	if (reason != 0)
		fail_at(name, reason);
	return reason == 0;
}

/* Every line of a list in a file. */
enum status run_list(bool verify, const struct options *options)
{
	struct bytes bytes;
	if ((options->reports != NULL && !is_folder(options->reports)) ||
	    !load_text(options->list, &bytes))
		return FAILED;
	struct tour tour = { .verify = verify, .folder = options->reports, .options = options,
			     .lines = count_lines(&bytes), .text = text_of(options->list, &bytes) };
	char *line;
	tour.inputs = count_inputs();
	keep_refusals(true);
	if (is_json())
		begin_pairs(&tour);
	while (ferror(stdout) == 0 && (line = next_line(&tour.text)) != NULL)
		take_line(&tour, line);
	end_progress();
	const enum status status = end_tour(&tour);
	free(bytes.at);
	return status;
}
