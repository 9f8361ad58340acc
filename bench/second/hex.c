#include "hex.h"

#include <stdbool.h>
#include <stddef.h>

#include "numbers.h"

#define LEAST UINT64_C(72)
#define MOST UINT64_C(16777216)
#define FULL 16
#define PAGE UINT64_C(65536)

/* The types of records: data, the end, and the upper half of the addresses that follow. */
enum { DATA = 0, END = 1, UPPER = 4 };

/* ---- export ---- */

/* #112: the text being written; without a text its characters are counted alone. */
struct writer {
	uint8_t *text;
	uint64_t length;
	uint64_t sum;	/* of the bytes of the record so far */
};

/* #112: one character. */
static void put_character(struct writer *to, char character)
{
	if (to->text != NULL)
		to->text[to->length] = (uint8_t)character;
	to->length++;
}

/* #112: one byte as two capital digits; it joins the record's sum. */
static void put_byte(struct writer *to, uint64_t byte)
{
	static const char digit[] = "0123456789ABCDEF";
	put_character(to, digit[byte / 16 % 16]);
	put_character(to, digit[byte % 16]);
	to->sum += byte % 256;
}

/* #112: what each record begins with: how many bytes, the address's lower half (highest byte first), the type. */
static void begin_record(struct writer *to, uint64_t count, uint64_t address, uint64_t type)
{
	put_character(to, ':');
	to->sum = 0;
	put_byte(to, count);
	put_byte(to, address / 256 % 256);
	put_byte(to, address % 256);
	put_byte(to, type);
}

/* #112: the byte that makes a record's sum 0 modulo 256, and the line's end. */
static void end_record(struct writer *to)
{
	put_byte(to, (256 - to->sum % 256) % 256);
	put_character(to, '\n');
}

/* #112: the upper half of the addresses from here on. */
static void put_upper(struct writer *to, uint64_t address)
{
	begin_record(to, 2, 0, UPPER);
	put_byte(to, address / PAGE / 256);
	put_byte(to, address / PAGE % 256);
	end_record(to);
}

/* #112: some bytes at an address. */
static void put_data(struct writer *to, uint64_t address, const uint8_t *bytes, uint64_t count)
{
	begin_record(to, count, address % PAGE, DATA);
	for (uint64_t i = 0; i < count; i++)
		put_byte(to, bytes[i]);
	end_record(to);
}

/* #112: all records; a legal base is a multiple of 16, so that none has bytes of two times 64 KiB. */
static void put_all(struct writer *to, const uint8_t *bytes, uint64_t length, uint64_t base)
{
	for (uint64_t at = 0; at < length; at += FULL) {
		if (at == 0 || (base + at) % PAGE == 0)
			put_upper(to, base + at);
		put_data(to, base + at, bytes + at, length - at < FULL ? length - at : FULL);
	}
	begin_record(to, 0, 0, END);
	end_record(to);
}

/* #112: 1, 18, then 53, for which the text is counted before it is written. */
struct second_exported second_export(const uint8_t *bytes, uint64_t length, uint64_t base,
				     uint8_t *text, uint64_t room)
{
	struct writer counted = { .text = NULL }, written = { .text = text };

	if (length < LEAST || length > MOST)
		return (struct second_exported){ .number = 1 };
	if (!legal_base(base, length))
		return (struct second_exported){ .number = 18 };
	put_all(&counted, bytes, length, base);
	if (counted.length > room)
		return (struct second_exported){ .number = 53 };
	put_all(&written, bytes, length, base);
	return (struct second_exported){ .length = written.length };
}

/* ---- import ---- */

/* #112: a record as it stands in the text: how many characters it takes, and where its bytes' digits begin. */
struct record {
	uint64_t characters;
	uint64_t count, address, type;
	uint64_t digits;
};

/* #112: what the records before lead to. */
struct reader {
	const uint8_t *text;
	uint64_t length;
	uint64_t at;		/* the next record's place */
	uint64_t base, count;	/* of the bytes so far */
	uint64_t upper;		/* the upper half that the last such record gave */
	bool any_upper, any_data;
	bool fresh;		/* the record before was one of the upper half */
	bool closed;		/* the record before had fewer than 16 bytes */
};

/* #112: a capital hex digit's value; 16 for any other character. */
static uint64_t digit_value(uint8_t character)
{
	if (character >= '0' && character <= '9')
		return (uint64_t)character - '0';
	if (character >= 'A' && character <= 'F')
		return (uint64_t)character - 'A' + 10;
	return 16;
}

/* #112: all characters of a part of the text are capital hex digits. */
static bool all_digits(const uint8_t *text, uint64_t at, uint64_t count)
{
	for (uint64_t i = 0; i < count; i++)
		if (digit_value(text[at + i]) == 16)
			return false;
	return true;
}

/* #112: the byte that two digits say. */
static uint64_t byte_of(const uint8_t *text, uint64_t at)
{
	return 16 * digit_value(text[at]) + digit_value(text[at + 1]);
}

/* #112: the bytes of a record's digits, the sum itself among them, come to 0 modulo 256. */
static bool sums(const uint8_t *text, uint64_t at, uint64_t bytes)
{
	uint64_t sum = 0;
	for (uint64_t i = 0; i < bytes; i++)
		sum += byte_of(text, at + 2 * i);
	return sum % 256 == 0;
}

/* #112: a whole record at the reader's place: colon, digits, right sum, line feed; false for any other characters. */
static bool take_record(const struct reader *r, struct record *record)
{
	const uint64_t left = r->length - r->at;
	if (left < 12 || r->text[r->at] != ':' || !all_digits(r->text, r->at + 1, 10))
		return false;
	record->count = byte_of(r->text, r->at + 1);
	record->address = 256 * byte_of(r->text, r->at + 3) + byte_of(r->text, r->at + 5);
	record->type = byte_of(r->text, r->at + 7);
	record->digits = r->at + 9;
	record->characters = 12 + 2 * record->count;
	if (record->characters > left || !all_digits(r->text, record->digits, 2 * record->count + 2))
		return false;
	return sums(r->text, r->at + 1, record->count + 5) && r->text[r->at + record->characters - 1] == '\n';
}

/* #112: where the next byte belongs. */
static uint64_t next_address(const struct reader *r)
{
	return r->base + r->count;
}

/* #112: the upper half comes first of all, and then exactly where the next byte begins another 64 KiB. */
static bool take_upper(struct reader *r, const struct record *record)
{
	if (record->count != 2 || record->address != 0 || r->fresh || r->closed)
		return false;
	const uint64_t upper = 256 * byte_of(r->text, record->digits) + byte_of(r->text, record->digits + 2);
	if (r->any_data && (next_address(r) % PAGE != 0 || next_address(r) / PAGE != upper))
		return false;
	r->upper = upper;
	r->any_upper = true;
	r->fresh = true;
	return true;
}

/* #112: the first data record says the base; every other one goes on where the bytes end, below the same upper half. */
static bool take_data(struct reader *r, const struct record *record)
{
	if (record->count < 1 || record->count > FULL || !r->any_upper || r->closed)
		return false;
	const uint64_t address = r->upper * PAGE + record->address;
	if (!r->any_data)
		r->base = address;
	if (address != next_address(r))
		return false;
	r->count += record->count;
	r->any_data = true;
	r->fresh = false;
	r->closed = record->count < FULL;
	return r->count <= MOST;
}

/* #112: the end record ends the text, and comes after bytes. */
static bool take_end(const struct reader *r, const struct record *record)
{
	return record->count == 0 && record->address == 0 && r->any_data && !r->fresh &&
	       r->at + record->characters == r->length;
}

/* #112: record by record to the end one; then what the records say must be a thing that is exported. */
static bool refuse_text(struct reader *r)
{
	struct record record;
	for (; take_record(r, &record); r->at += record.characters) {
		if (record.type == END)
			return !take_end(r, &record) || r->count < LEAST || !legal_base(r->base, r->count);
		if (record.type != DATA && record.type != UPPER)
			return true;
		if (record.type == DATA ? !take_data(r, &record) : !take_upper(r, &record))
			return true;
	}
	return true;
}

/* #112: the bytes of the data records of a text that nobody refuses. */
static void write_bytes(const uint8_t *text, uint64_t length, uint8_t *bytes)
{
	struct reader r = { .text = text, .length = length };
	struct record record;
	for (; take_record(&r, &record) && record.type != END; r.at += record.characters)
		for (uint64_t i = 0; record.type == DATA && i < record.count; i++)
			bytes[r.count++] = (uint8_t)byte_of(text, record.digits + 2 * i);
}

/* #112: 50, then 53; the text is read to its end before a byte is written. */
struct second_imported second_import(const uint8_t *text, uint64_t text_length,
				     uint8_t *bytes, uint64_t room)
{
	struct reader r = { .text = text, .length = text_length };

	if (refuse_text(&r))
		return (struct second_imported){ .number = 50 };
	if (r.count > room)
		return (struct second_imported){ .number = 53 };
	write_bytes(text, text_length, bytes);
	return (struct second_imported){ .base = r.base, .length = r.count };
}
