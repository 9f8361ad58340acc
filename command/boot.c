/*
 * Boot logs: a line has a call by its name or number, NotifyPhase with its notification, or a reset. A
 * name that nothing has is the library's to refuse; what is no call at all is judged here.
 */
#include "boot.h"

#include <inttypes.h>
#include <string.h>

#include "messages.h"
#include "pajurenda.h"

/* ---- names ---- */

/* The names of the FSP specification and of document 02, with the number that the library has. */
static const struct name {
	const char *name;
	uint64_t number;
} calls[] = {
	{ "TempRamInit", PAJURENDA_CALL_TEMP_RAM_INIT },
	{ "MemoryInit", PAJURENDA_CALL_MEMORY_INIT },
	{ "FspMemoryInit", PAJURENDA_CALL_MEMORY_INIT },
	{ "TempRamExit", PAJURENDA_CALL_TEMP_RAM_EXIT },
	{ "SiliconInit", PAJURENDA_CALL_SILICON_INIT },
	{ "FspSiliconInit", PAJURENDA_CALL_SILICON_INIT },
	{ "NotifyPhase", PAJURENDA_CALL_NOTIFY_PHASE },
	{ "notify", PAJURENDA_CALL_NOTIFY_PHASE },
}, notifications[] = {
	{ "AfterPciEnumeration", PAJURENDA_NOTIFY_AFTER_PCI_ENUMERATION },
	{ "ReadyToBoot", PAJURENDA_NOTIFY_READY_TO_BOOT },
	{ "EndOfFirmware", PAJURENDA_NOTIFY_END_OF_FIRMWARE },
	{ "EnumInitPhaseAfterPciEnumeration", PAJURENDA_NOTIFY_AFTER_PCI_ENUMERATION },
	{ "EnumInitPhaseReadyToBoot", PAJURENDA_NOTIFY_READY_TO_BOOT },
	{ "EnumInitPhaseEndOfFirmware", PAJURENDA_NOTIFY_END_OF_FIRMWARE },
};

#define CALLS (sizeof calls / sizeof calls[0])
#define NOTIFICATIONS (sizeof notifications / sizeof notifications[0])

/* The number of a name; 0 where it has none. */
static uint64_t number_of(const struct name *names, size_t count, const char *word)
{
	for (size_t i = 0; i < count; i++)
		if (strcmp(names[i].name, word) == 0)
			return names[i].number;
	return 0;
}

/* ---- a line ---- */

/* A word that is a number, or meant as one. */
static bool is_numeric(const char *word)
{
	return *word >= '0' && *word <= '9';
}

/* The number of a word, by itself or by its name; false after a message. */
static bool take_either(const struct text *text, const struct field *field, const struct name *names,
			size_t count, const char *word, uint64_t *value, struct call *call)
{
	if (is_numeric(word))
		return take_field(text, field, word, value);
	*value = number_of(names, count, word);
	if (*value == 0)
		call->unknown = word;
	return true;
}

/* The notification of a call that has one; false after a message. */
static bool take_notification(const struct text *text, char **rest, struct call *call)
{
	static const struct field field = { "notification", 64, "" };
	const char *word = next_word(rest);
	if (word != NULL)
		return take_either(text, &field, notifications, NOTIFICATIONS, word,
				   &call->notification, call);
	fail_line(text, "a notification is missing: write its name or number, as notify 0x20");
	return false;
}

/* The call that a line starts with; false after a message. A notification's name may stand alone. */
static bool take_words(const struct text *text, const char *word, char **rest, struct call *call)
{
	static const struct field field = { "call", 64, "" };
	call->notification = number_of(notifications, NOTIFICATIONS, word);
	if (call->notification != 0) {
		call->call = PAJURENDA_CALL_NOTIFY_PHASE;
		return true;
	}
	if (!take_either(text, &field, calls, CALLS, word, &call->call, call))
		return false;
	return call->call != PAJURENDA_CALL_NOTIFY_PHASE || take_notification(text, rest, call);
}

/* How long the time is that a line begins with: up to its bracket, or a number up to its colon; 0 where there is
   none. What stands in brackets must have a digit. */
static size_t length_of_stamp(const char *line)
{
	const size_t length = strcspn(line, *line == '[' ? "]" : ":");
	if (line[length] == 0)
		return 0;
	if (*line == '[')
		return strcspn(line, "0123456789") < length ? length + 1 : 0;
	const size_t whole = strspn(line, "0123456789"), part = line[whole] == '.' ? whole + 1 : whole;
	return whole > 0 && part + strspn(line + part, "0123456789") == length ? length + 1 : 0;
}

/* The time noted, and passed over. */
static char *pass_stamp(char *line, struct call *call)
{
	call->stamp = line + strspn(line, " \t");
	call->stamp_length = length_of_stamp(call->stamp);
	return call->stamp_length == 0 ? line : line + (call->stamp - line) + call->stamp_length;
}

/* A line of any kind; NOT_READ after a message. */
enum told take_call(const struct text *text, char *line, struct call *call)
{
	*call = (struct call){ .unknown = NULL };
	if (!is_clean(text, line))
		return NOT_READ;
	line = pass_stamp(line, call);
	const char *word = next_word(&line);
	if (word == NULL)
		return NOTHING_TOLD;
	const bool reset = strcmp(word, "reset") == 0;
	if (!reset && !take_words(text, word, &line, call))
		return NOT_READ;
	word = next_word(&line);
	if (word == NULL)
		return reset ? RESET_TOLD : CALL_TOLD;
	fail_word(text, "", word, "is one word too many: a line has one call");
	return NOT_READ;
}

/* ---- showing ---- */

/* A word that nothing is named, in quotes; of a long one its start. */
static void show_unknown(FILE *to, const char *word)
{
	fputc('"', to);
	put_start(to, word);
	fputc('"', to);
}

/* A notification: its number and name, or what stands in their place. */
static void show_notification(FILE *to, const struct call *call)
{
	const char *name = pajurenda_notification_name(call->notification);
	if (call->unknown != NULL)
		show_unknown(to, call->unknown);
	else
		fprintf(to, "0x%02" PRIX64 "%s%s", call->notification,
			strcmp(name, "unknown") == 0 ? "" : " ", strcmp(name, "unknown") == 0 ? "" : name);
}

/* A call by its name, with its notification where it has one; or what stands in their place. */
void show_call(FILE *to, const struct call *call)
{
	const char *name = pajurenda_call_name(call->call);
	if (call->call == PAJURENDA_CALL_NOTIFY_PHASE) {
		fprintf(to, "%s ", name);
		show_notification(to, call);
	} else if (call->unknown != NULL) {
		fputs("call ", to);
		show_unknown(to, call->unknown);
	} else if (strcmp(name, "unknown") == 0) {
		fprintf(to, "call %" PRIu64, call->call);
	} else {
		fputs(name, to);
	}
}
