/* audit --list --json and verify --list --json: the pairs of a list as one document. */
#include <inttypes.h>
#include <stdio.h>

#include "inputs.h"
#include "json.h"
#include "list.h"
#include "signs.h"

/* A member of an object in a line, a text or null. */
static void put_member(const char *name, const char *text)
{
	printf(", \"%s\": ", name);
	if (text == NULL)
		fputs("null", stdout);
	else
		put_json_text(stdout, text);
}

/* The names as the line has them. */
static void put_line_names(char **name)
{
	fputs(", \"names\": [", stdout);
	for (size_t i = 0; name[i] != NULL; i++) {
		fputs(i == 0 ? "" : ", ", stdout);
		put_json_text(stdout, name[i]);
	}
	putchar(']');
}

/* The library's answer, and the counts where it accepted. */
static void put_answer(const struct check *check)
{
	const bool refused = check->number != PAJURENDA_ACCEPTED;
	printf(", \"number\": %" PRIu32 ", \"name\": \"%s\", \"index\": %" PRIu64 ", \"refusal\": ", check->number,
	       pajurenda_name(check->number), check->index);
	put_refusal(check->number);
	put_member("refused", refused ? check->refused->name : NULL);
	if (!refused)
		printf(", \"base\": \"0x%08" PRIX64 "\", \"settings\": %" PRIu64 ", \"strays\": %" PRIu64 ", \"bits\": %" PRIu64,
		       count_of(check, PAJURENDA_AUDIT_BASE), count_of(check, PAJURENDA_AUDIT_SETTINGS),
		       count_of(check, PAJURENDA_AUDIT_STRAYS), count_of(check, PAJURENDA_AUDIT_BITS));
	put_member("required", required_of(check));
	put_member("verdict", verdict_of(check));
}

/* The document's start. */
void begin_pairs(const struct tour *tour)
{
	begin_document();
	json_text("list", tour->text.name);
	fputs(",\n  \"pairs\": [", stdout);
}

/* A pair: the list's line, its names and files, and what came of it; of one that couldn't be checked that. */
void write_pair(struct tour *tour, const struct check *check, char **name, bool failed)
{
	printf("%s\n    {\"line\": %zu", tour->pairs++ == 0 ? "" : ",", tour->text.line);
	put_line_names(name);
	fputs(", \"files\": ", stdout);
	json_inputs(tour->inputs, false);
	printf(", \"failed\": %s", failed ? "true" : "false");
	if (!failed)
		put_answer(check);
	putchar('}');
}

/* The counts of all. */
void end_pairs(const struct tour *tour, uint64_t pairs)
{
	fputs("\n  ]", stdout);
	json_number("count", pairs);
	json_number("good", tour->good);
	json_number("bad", tour->bad);
	json_number("not_as_required", tour->unheld);
	json_number("refused", tour->refused);
	json_number("failed", tour->failed);
	end_json();
}
