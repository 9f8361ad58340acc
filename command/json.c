/* JSON on standard output: one object, a member a line, in an order that stays. */
#include "json.h"

#include <inttypes.h>
#include <stdio.h>

#include "help.h"
#include "inputs.h"
#include "pajurenda.h"
#include "refusals.h"
#include "show.h"
#include "signs.h"

/* The form of these documents: another number where a member is gone or means something else. */
#define FORMAT 1

/* A document is wanted in place of lines, of this command; and it has been begun. */
static bool wanted, begun;
static const char *wanted_of;

/* What the command line asks for; a refusal's number then stands in the document alone. */
void want_json(const char *command, bool json)
{
	wanted = json;
	wanted_of = command;
	note_inputs(json);
	keep_refusals(json);
}

bool is_json(void)
{
	return wanted;
}

/* The start of each document: its form, the tool, the command, and the files that were read. */
void begin_json(const char *command)
{
	begun = true;
	printf("{\n  \"format\": %d,\n  \"tool\": {\"version\": \"%s\", \"kit\": ", FORMAT, PAJURENDA_VERSION);
	put_json_text(stdout, kit_name());
	fputs(", \"archive\": ", stdout);
	put_json_text(stdout, archive_digest());
	printf("},\n  \"command\": \"%s\",\n  \"files\": ", command);
	json_inputs(0, true);
}

/* The same of the command that was typed. */
void begin_document(void)
{
	begin_json(wanted_of);
}

/* A refusal that no document has told of gets one of its own. */
void end_documents(void)
{
	if (!wanted || begun || refusal_number() == PAJURENDA_ACCEPTED)
		return;
	begin_document();
	json_answer(refusal_number(), refusal_index());
	end_json();
}

void end_json(void)
{
	fputs("\n}\n", stdout);
}

/* A text from outside; null where there is none. */
void json_text(const char *name, const char *text)
{
	printf(",\n  \"%s\": ", name);
	if (text == NULL)
		fputs("null", stdout);
	else
		put_json_text(stdout, text);
}

void json_number(const char *name, uint64_t value)
{
	printf(",\n  \"%s\": %" PRIu64, name, value);
}

void json_signed(const char *name, int64_t value)
{
	printf(",\n  \"%s\": %" PRId64, name, value);
}

/* What is shown in hex is text, with its 0x. */
void json_hex(const char *name, unsigned digits, uint64_t value)
{
	printf(",\n  \"%s\": \"0x%0*" PRIX64 "\"", name, (int)digits, value);
}

/* The library's answer: 0 and ACCEPTED, or the refusal. */
void json_answer(uint32_t number, uint64_t index)
{
	json_number("number", number);
	printf(",\n  \"name\": \"%s\"", pajurenda_name(number));
	json_number("index", index);
	json_refusal(number);
}

/* What a refusal is about: the rule, and the values that decided as they were told; null where accepted. */
void put_refusal(uint32_t number)
{
	if (number == PAJURENDA_ACCEPTED) {
		fputs("null", stdout);
		return;
	}
	fputs("{\"rule\": ", stdout);
	put_json_text(stdout, pajurenda_sentence(number));
	fputs(", \"values\": ", stdout);
	if (refusal_values() == NULL)
		fputs("null", stdout);
	else
		put_json_text(stdout, refusal_values());
	putchar('}');
}

/* The same as a member. */
void json_refusal(uint32_t number)
{
	fputs(",\n  \"refusal\": ", stdout);
	put_refusal(number);
}

/* Bytes in hex, in quotes. */
void json_bytes(const uint8_t *bytes, uint64_t count)
{
	putchar('"');
	show_hex(stdout, bytes, (size_t)count);
	putchar('"');
}

/* What an image is by, or a sheet is for, without the version that this makes. */
void json_bound_parts(const uint8_t *identity, uint64_t revision, uint64_t extended)
{
	char text[9] = "";
	for (size_t i = 0; i < 8; i++)
		text[i] = (char)identity[i];
	fputs(",\n  \"identity\": ", stdout);
	json_bytes(identity, 8);
	json_text("identity_text", is_printable(identity, 8) ? text : NULL);
	json_hex("revision", 8, revision);
	json_hex("extended", 4, extended);
}

/* The same with the version. */
void json_parts(const uint8_t *identity, uint64_t revision, uint64_t extended)
{
	json_bound_parts(identity, revision, extended);
	fputs(",\n  \"version\": \"", stdout);
	show_image_version(stdout, revision, extended);
	putchar('"');
}
