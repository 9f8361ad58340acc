/* The stream of records: a head of 40 bytes and the bytes that go into a buffer before a call. */
#include "cases.h"

#include <string.h>

#define BUFFERS 3

/* A run of bytes of one buffer. */
struct run {
	unsigned which;
	uint64_t at, count;
};

static FILE *records;
static uint8_t *const buffer[BUFFERS] = { image, sheet, owners };
static const uint64_t space[BUFFERS] = { SPACE, SPACE, OWNERS_SPACE };
static uint8_t sent[BUFFERS][SPACE];
static bool known[BUFFERS][SPACE];

/* Where the records go. */
void open_stream(FILE *to)
{
	records = to;
}

/* A part: its own sequence of numbers, and nothing known of the buffers but zeros at the very start. */
void begin_part(uint64_t first_number, bool all_zero)
{
	seed(first_number);
	memset(image, 0, SPACE);
	memset(sheet, 0, SPACE);
	memset(owners, 0, OWNERS_SPACE);
	memset(sent, 0, sizeof sent);
	for (uint64_t i = 0; i < SPACE; i++)
		known[0][i] = known[1][i] = known[2][i] = all_zero;
}

/* Sources: all numbers are little-endian. */
static void write_number(uint64_t value, unsigned width)
{
	for (unsigned i = 0; i < width; i++)
		if (putc((int)(value >> (8 * i) & 255), records) == EOF)
			fail("writing records");
}

/* One record; what was sent follows what is wanted. */
static void write_record(const struct run *run, const struct order *order)
{
	const uint8_t *bytes = buffer[run->which] + run->at;
	write_number(run->which, 4);
	write_number(run->at, 4);
	write_number(run->count, 4);
	write_number(order->call, 4);
	write_number(order->len, 4);
	write_number(order->other, 4);
	write_number(order->a, 8);
	write_number(order->b, 8);
	if (fwrite(bytes, 1, run->count, records) != run->count)
		fail("writing records");
	memcpy(sent[run->which] + run->at, bytes, run->count);
	memset(known[run->which] + run->at, true, run->count);
}

/* A byte the other side doesn't have yet. */
static bool missing(unsigned which, uint64_t at)
{
	return !known[which][at] || sent[which][at] != buffer[which][at];
}

/* The next run of missing bytes below a limit, runs less than a head apart taken as one. */
static bool next_run(struct run *run, uint64_t from, uint64_t limit)
{
	while (from < limit && !missing(run->which, from))
		from++;
	if (from >= limit)
		return false;
	uint64_t end = from + 1;
	for (uint64_t i = end; i < limit && i < end + 40; i++)
		if (missing(run->which, i))
			end = i + 1;
	run->at = from;
	run->count = end - from;
	return true;
}

/* A case: the missing bytes of all buffers, the last record carrying the call. */
void send_case(const struct order *order)
{
	static const struct order nothing = { .call = CALL_NONE };
	const uint64_t limit[BUFFERS] = { order->len, order->other, order->list };
	struct run last = { .which = 0 };
	bool any = false;

	for (unsigned which = 0; which < BUFFERS; which++) {
		struct run run = { .which = which };
		if (limit[which] > space[which])
			fail("more than the buffer");
		while (next_run(&run, run.at + run.count, limit[which])) {
			if (any)
				write_record(&last, &nothing);
			last = run;
			any = true;
		}
	}
	write_record(&last, order);
}

/* A call has changed a buffer, on both sides. */
void change_buffer(unsigned which, const uint8_t *bytes, uint64_t len)
{
	memcpy(buffer[which], bytes, len);
	memcpy(sent[which], bytes, len);
}
