/* station [--json] LOG: each call of a boot log given to the library, with its answer and what was expected. */
#define _XOPEN_SOURCE 700

#include <inttypes.h>
#include <stdbool.h>
#include <stdio.h>
#include <stdlib.h>
#include <string.h>

#include "boot.h"
#include "json.h"
#include "messages.h"
#include "pajurenda.h"
#include "refusals.h"
#include "signs.h"

/* The log, the state that the library keeps here, and what has been counted. */
struct station {
	struct text text;
	uint8_t state[PAJURENDA_STATION_BYTES];
	uint64_t calls, resets, refused;
	size_t first;   /* the first refused line */
	size_t written; /* how many lines a document has */
};

/* Every call that there is. */
static const struct call known[] = {
	{ .call = PAJURENDA_CALL_TEMP_RAM_INIT },
	{ .call = PAJURENDA_CALL_MEMORY_INIT },
	{ .call = PAJURENDA_CALL_TEMP_RAM_EXIT },
	{ .call = PAJURENDA_CALL_SILICON_INIT },
	{ .call = PAJURENDA_CALL_NOTIFY_PHASE,
	  .notification = PAJURENDA_NOTIFY_AFTER_PCI_ENUMERATION },
	{ .call = PAJURENDA_CALL_NOTIFY_PHASE, .notification = PAJURENDA_NOTIFY_READY_TO_BOOT },
	{ .call = PAJURENDA_CALL_NOTIFY_PHASE, .notification = PAJURENDA_NOTIFY_END_OF_FIRMWARE },
};

#define KNOWN (sizeof known / sizeof known[0])

/* The library would take a call in a state, which stays as it is. */
static bool would_take(const struct station *station, const struct call *call)
{
	uint8_t copy[PAJURENDA_STATION_BYTES];
	memcpy(copy, station->state, sizeof copy);
	return pajurenda_station(copy, sizeof copy, call->call, call->notification) ==
	       PAJURENDA_ACCEPTED;
}

/* Every call that the library would take now. */
static void show_expected(FILE *to, const struct station *station)
{
	const char *before = "";
	for (size_t i = 0; i < KNOWN; i++) {
		if (!would_take(station, &known[i]))
			continue;
		fputs(before, to);
		show_call(to, &known[i]);
		before = " or ";
	}
	if (*before == 0)
		fputs("nothing but a reset", to);
}

/* The first refusal on standard error, at once, with its rule. */
static void tell_first(const struct station *station, uint32_t number, const struct call *call)
{
	begin_told_refusal(number, station->text.name);
	say_rule(number);
	fprintf(saying(), "line %zu: ", station->text.line);
	show_call(saying(), call);
	fputs(", expected ", saying());
	show_expected(saying(), station);
	(void)end_refusal();
}

/* A refused call, told; the first on standard error too. */
static void note_refused(struct station *station, uint32_t number, const struct call *call)
{
	if (station->refused++ > 0)
		return;
	station->first = station->text.line;
	tell_first(station, number, call);
}

/* The line's number, and what it begins with before its call. */
static void show_start(const struct station *station, const struct call *call)
{
	printf("%zu ", station->text.line);
	if (call->stamp_length == 0)
		return;
	put_signs(stdout, call->stamp, call->stamp_length);
	putchar(' ');
}

/* A call's line: its answer, and of a refused one what was expected, as the state is still what it was. */
static void show_answer(const struct station *station, uint32_t number, const struct call *call)
{
	show_start(station, call);
	show_call(stdout, call);
	if (number == PAJURENDA_ACCEPTED) {
		puts(" accepted");
		return;
	}
	printf(" refused %" PRIu32 " %s, expected ", number, pajurenda_name(number));
	show_expected(stdout, station);
	putchar('\n');
}

/* ---- as a document ---- */

/* Every call that the library would take now, as an array. */
static void write_expected(const struct station *station)
{
	const char *before = "\"";
	putchar('[');
	for (size_t i = 0; i < KNOWN; i++) {
		if (!would_take(station, &known[i]))
			continue;
		fputs(before, stdout);
		show_call(stdout, &known[i]);
		putchar('"');
		before = ", \"";
	}
	putchar(']');
}

/* A text that is made in memory, as a string. */
static void write_made(const struct call *call, bool stamp)
{
	char *at = NULL;
	size_t length = 0;
	FILE *to = open_memstream(&at, &length);
	if (to != NULL && stamp)
		(void)put_signs(to, call->stamp, call->stamp_length);
	else if (to != NULL)
		show_call(to, call);
	if (to == NULL || fclose(to) != 0 || (stamp && length == 0))
		fputs("null", stdout);
	else
		put_json_text(stdout, at);
	free(at);
}

/* The start of a line's object. */
static void write_start(struct station *station, const struct call *call)
{
	printf("%s\n    {\"line\": %zu, \"stamp\": ", station->written++ == 0 ? "" : ",", station->text.line);
	write_made(call, true);
	fputs(", \"call\": ", stdout);
}

/* A call's object: expected is what the library would have taken in the place of a refused one. */
static void write_call(struct station *station, uint32_t number, const struct call *call)
{
	write_start(station, call);
	write_made(call, false);
	printf(", \"number\": %" PRIu32 ", \"name\": \"%s\", \"expected\": ", number, pajurenda_name(number));
	if (number == PAJURENDA_ACCEPTED)
		fputs("null", stdout);
	else
		write_expected(station);
	putchar('}');
}

/* ---- a line ---- */

/* A call: its line, its name, and the library's answer. */
static enum status follow_call(struct station *station, const struct call *call)
{
	const uint32_t number = pajurenda_station(station->state, sizeof station->state, call->call,
						  call->notification);
	const bool right = call->unknown == NULL || number == PAJURENDA_UNKNOWN;
	station->calls++;
	if (!right || (number != PAJURENDA_ACCEPTED && number != PAJURENDA_ORDER &&
		       number != PAJURENDA_UNKNOWN))
		return fail_answer();
	if (number != PAJURENDA_ACCEPTED)
		note_refused(station, number, call);
	if (is_json())
		write_call(station, number, call);
	else
		show_answer(station, number, call);
	return FINE;
}

/* A reset starts afresh. */
static enum status follow_reset(struct station *station, const struct call *call)
{
	station->resets++;
	if (pajurenda_station_reset(station->state, sizeof station->state) != PAJURENDA_ACCEPTED)
		return fail_answer();
	if (is_json()) {
		write_start(station, call);
		fputs("\"reset\", \"number\": 0, \"name\": \"ACCEPTED\", \"expected\": null}", stdout);
		return FINE;
	}
	show_start(station, call);
	puts("reset");
	return FINE;
}

/* A line of the log. */
static enum status follow_line(struct station *station, char *line)
{
	struct call call;
	switch (take_call(&station->text, line, &call)) {
	case NOTHING_TOLD: return FINE;
	case CALL_TOLD: return follow_call(station, &call);
	case RESET_TOLD: return follow_reset(station, &call);
	default: return FAILED;
	}
}

/* The boot is at its end: the library takes no call any more. */
static bool is_complete(const struct station *station)
{
	for (size_t i = 0; i < KNOWN; i++)
		if (would_take(station, &known[i]))
			return false;
	return true;
}

/* The status: a refused call is worse than a boot that isn't at its end. */
static enum status status_at_end(const struct station *station)
{
	if (station->refused > 0)
		return FAILED;
	return is_complete(station) ? FINE : UNEXPLAINED;
}

/* The counts, and whether the last boot came to its end. */
static void show_summary(const struct station *station)
{
	printf("calls %" PRIu64 "\nresets %" PRIu64 "\nrefusals %" PRIu64, station->calls,
	       station->resets, station->refused);
	if (station->refused > 0)
		printf(", the first in line %zu", station->first);
	if (!is_complete(station)) {
		fputs("\nboot not complete, expected ", stdout);
		show_expected(stdout, station);
		putchar('\n');
	} else {
		puts(station->refused == 0 ? "\nboot complete" : "\nboot at its end, but with refused calls");
	}
}

/* The end of a document: the answer of the first refused call, the counts, and whether the boot came to its end. */
static void write_summary(const struct station *station)
{
	printf("%s]", station->written == 0 ? "" : "\n  ");
	json_answer(refusal_number(), 0);
	json_number("calls", station->calls);
	json_number("resets", station->resets);
	json_number("refusals", station->refused);
	printf(",\n  \"complete\": %s,\n  \"expected\": ", is_complete(station) ? "true" : "false");
	write_expected(station);
	end_json();
}

/* All lines from the reset on, until one can't be read or written; then the counts. */
static enum status follow(struct station *station)
{
	char *line;
	if (pajurenda_station_reset(station->state, sizeof station->state) != PAJURENDA_ACCEPTED)
		return fail_answer();
	if (is_json()) {
		begin_document();
		json_text("log", station->text.name);
		fputs(",\n  \"lines\": [", stdout);
	}
	while ((line = next_line(&station->text)) != NULL && ferror(stdout) == 0)
		if (follow_line(station, line) != FINE)
			return FAILED;
	if (is_json())
		write_summary(station);
	else
		show_summary(station);
	return status_at_end(station);
}

/* station LOG */
enum status do_station(char **word, const struct options *options)
{
	struct named log = { .name = word[0] };
	struct station station = { .calls = 0 };
	(void)options;
	if (!load_text(log.name, &log.bytes))
		return FAILED;
	station.text = text_of(log.name, &log.bytes);
	const enum status status = follow(&station);
	free(log.bytes.at);
	return status;
}
