/* Texts of Intel HEX records, right and wrong, for the comparison. */
#include "hex_texts.h"

#include <stdbool.h>
#include <string.h>

#include "../make/drawn.h"

/* What can be other than an export has it, each with right sums. */
enum fault {
	NONE, LOWER_CASE, CARRIAGE_RETURNS, SHORT_RECORDS, LONG_RECORDS, NO_UPPER, TWO_UPPER, UPPER_ADDRESS, NO_NEW_UPPER,
	UPPER_AT_THE_END, OTHER_ADDRESS, EXCHANGED, DATA_TWICE, EMPTY_RECORD, SEGMENT_RECORD, END_TWICE, END_ADDRESS, NO_END,
	NO_LAST_LINE_FEED, MORE_AFTER, START_RECORD, FAULTS
};

struct writer {
	uint8_t *text;
	size_t length;
	enum fault fault;
};

static void put_character(struct writer *to, char character)
{
	to->text[to->length++] = (uint8_t)character;
}

static void put_pair(struct writer *to, unsigned byte)
{
	const char *digits = to->fault == LOWER_CASE ? "0123456789abcdef" : "0123456789ABCDEF";
	put_character(to, digits[byte / 16 % 16]);
	put_character(to, digits[byte % 16]);
}

/* One record with its sum and the line's end. */
static void put_record(struct writer *to, unsigned type, uint64_t address, const uint8_t *bytes, size_t count)
{
	unsigned sum = (unsigned)count + (unsigned)(address / 256 % 256) + (unsigned)(address % 256) + type;
	put_character(to, ':');
	put_pair(to, (unsigned)count);
	put_pair(to, (unsigned)(address / 256 % 256));
	put_pair(to, (unsigned)(address % 256));
	put_pair(to, type);
	for (size_t i = 0; i < count; i++) {
		put_pair(to, bytes[i]);
		sum += bytes[i];
	}
	put_pair(to, (256 - sum % 256) % 256);
	if (to->fault == CARRIAGE_RETURNS)
		put_character(to, '\r');
	put_character(to, '\n');
}

static void put_upper(struct writer *to, uint64_t address)
{
	const uint8_t upper[] = { (uint8_t)(address >> 24), (uint8_t)(address >> 16) };
	put_record(to, 4, to->fault == UPPER_ADDRESS ? 16 : 0, upper, 2);
	if (to->fault == TWO_UPPER)
		put_record(to, 4, 0, upper, 2);
	if (to->fault == SEGMENT_RECORD)
		put_record(to, 2, 0, upper, 2);
}

/* The data records, and those of upper bits among them. */
static void put_data(struct writer *to, const uint8_t *bytes, size_t length, uint64_t base)
{
	const size_t full = to->fault == SHORT_RECORDS ? 8 : to->fault == LONG_RECORDS ? 32 : 16;
	for (size_t at = 0; at < length; at += full) {
		const size_t count = length - at < full ? length - at : full;
		const uint64_t address = base + at;
		if (at == 0 ? to->fault != NO_UPPER : address % 65536 == 0 && to->fault != NO_NEW_UPPER)
			put_upper(to, address);
		if (to->fault == EMPTY_RECORD && at == full)
			put_record(to, 0, address, bytes, 0);
		if (to->fault == EXCHANGED && at == full && at + count < length)
			put_record(to, 0, address + full, bytes + at + full, length - at - full < full ? length - at - full : full);
		put_record(to, 0, to->fault == OTHER_ADDRESS && at == full ? address + 16 : address, bytes + at, count);
		if (to->fault == DATA_TWICE && at == full)
			put_record(to, 0, address, bytes + at, count);
	}
	if (to->fault == UPPER_AT_THE_END)
		put_upper(to, base + length);
}

static void put_end(struct writer *to)
{
	static const uint8_t start[] = { 0, 0, 0, 0 };
	if (to->fault == START_RECORD)
		put_record(to, 5, 0, start, 4);
	if (to->fault != NO_END)
		put_record(to, 1, to->fault == END_ADDRESS ? 1 : 0, start, 0);
	if (to->fault == END_TWICE)
		put_record(to, 1, 0, start, 0);
	if (to->fault == NO_LAST_LINE_FEED)
		to->length--;
	if (to->fault == MORE_AFTER)
		put_character(to, '\n');
}

size_t draw_records(uint8_t *text, const uint8_t *bytes, size_t length, uint64_t base)
{
	struct writer to = { .text = text, .fault = (enum fault)below(FAULTS) };
	put_data(&to, bytes, length, base);
	put_end(&to);
	return to.length;
}

/* A character of the kind that stands in such texts, or any. */
static uint8_t draw_character(void)
{
	static const char known[] = "0123456789ABCDEFabcdef:\r\n \tG@/";
	return below(2) == 0 ? (uint8_t)known[below(sizeof known - 1)] : (uint8_t)below(256);
}

/* Two characters exchanged. */
static void exchange(uint8_t *text, size_t one, size_t other)
{
	const uint8_t kept = text[one];
	text[one] = text[other];
	text[other] = kept;
}

size_t damage_text(uint8_t *text, size_t length)
{
	for (uint64_t left = 1 + below(2); left > 0 && length > 1; left--) {
		const size_t at = (size_t)below(length);
		switch (below(5)) {
		case 0: text[at] = draw_character(); break;
		case 1: memmove(text + at, text + at + 1, --length - at); break;
		case 2:
			memmove(text + at + 1, text + at, length++ - at);
			text[at] = draw_character();
			break;
		case 3: exchange(text, at, (size_t)below(length)); break;
		default: length = at; break;
		}
	}
	return length;
}
