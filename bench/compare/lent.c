/* Buffers lent to the library, and how a comparison starts and ends. */
#define _DEFAULT_SOURCE

#include "lent.h"

#include <inttypes.h>
#include <signal.h>
#include <stdio.h>
#include <stdlib.h>
#include <string.h>
#include <sys/mman.h>
#include <unistd.h>

#include "pajurenda.h"
#include "../make/drawn.h"

#define GUARD ((size_t)64)
#define EDGE ((size_t)65536)

char whereabouts[96];

/* Memory or the end. */
void *memory(void *got)
{
	if (got == NULL || got == MAP_FAILED) {
		fputs("compare: no memory\n", stderr);
		exit(2);
	}
	return got;
}

/* One buffer between two untouchable stretches. */
void open_lent(struct lent *lent, size_t room)
{
	uint8_t *at = memory(mmap(NULL, room + 2 * EDGE, PROT_NONE, MAP_PRIVATE | MAP_ANONYMOUS, -1, 0));
	if (mprotect(at + EDGE, room, PROT_READ | PROT_WRITE) != 0)
		(void)memory(NULL);
	lent->low = at + EDGE;
	lent->room = room;
}

/* The bytes at one of three places, and guard bytes beside them as far as there is room. */
void lend(struct lent *lent, const uint8_t *bytes, size_t length)
{
	const size_t free_room = lent->room - length;
	const uint64_t kind = below(3);
	size_t from = kind == 0 ? free_room : kind == 1 ? 0 : GUARD + (size_t)below(64);

	if (from > free_room)
		from = free_room;
	lent->at = lent->low + from;
	lent->length = length;
	lent->lead = from < GUARD ? from : GUARD;
	lent->tail = free_room - from < GUARD ? free_room - from : GUARD;
	memset(lent->at - lent->lead, 0xA5, lent->lead);
	memset(lent->at + length, 0x5A, lent->tail);
	memcpy(lent->at, bytes, length);
}

/* The guard bytes are whole. */
static bool guarded(const struct lent *lent)
{
	for (size_t i = 1; i <= lent->lead; i++)
		if (lent->at[0 - i] != 0xA5)
			return false;
	for (size_t i = 0; i < lent->tail; i++)
		if (lent->at[lent->length + i] != 0x5A)
			return false;
	return true;
}

/* The first byte that is another. */
bool same_lent(const struct lent *lent, const char *name, const uint8_t *wanted)
{
	size_t at = 0;
	if (!guarded(lent)) {
		printf("guard bytes of the %s changed\n", name);
		return false;
	}
	if (memcmp(lent->at, wanted, lent->length) == 0)
		return true;
	while (lent->at[at] == wanted[at])
		at++;
	printf("%s byte %zu of %zu: %02X, not %02X\n", name, at, lent->length,
	       (unsigned)lent->at[at], (unsigned)wanted[at]);
	return false;
}

/* What a signal leads to. */
static void on_fault(int number)
{
	static const char what[] = "different: a signal ended the call (memory touched that was not lent?)\n";
	(void)number;
	if (write(1, what, sizeof what - 1) < 0 || write(1, whereabouts, strlen(whereabouts)) < 0)
		_exit(3);
	_exit(1);
}

/* The same for every signal that a fault raises. */
void watch_faults(void)
{
	static const int faults[] = { SIGSEGV, SIGBUS, SIGILL, SIGFPE, SIGABRT, SIGTRAP };
	for (size_t i = 0; i < sizeof faults / sizeof faults[0]; i++)
		signal(faults[i], on_fault);
}

/* How often each number came that a call gave. */
void show_seen(const char *call, const uint64_t *seen)
{
	printf("%-8s", call);
	for (int number = 0; number <= PAJURENDA_SHORT; number++)
		if (seen[number] != 0)
			printf(" %d:%" PRIu64, number, seen[number]);
	putchar('\n');
}

/* Digits alone. */
uint64_t number_of(const char *text)
{
	char *end = NULL;
	const uint64_t value = strtoull(text, &end, 10);
	if (text[0] < '0' || text[0] > '9' || *end != 0) {
		fprintf(stderr, "compare: %s is no number\n", text);
		exit(2);
	}
	return value;
}
