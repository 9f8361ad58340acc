/* SHA-256 by the linked library and by plain C: every length up to 200, the lengths around each block's end, a large message and drawn
   ones, answers too short, with guard bytes around all that is lent. Messages and their digests are left in a folder, each in a file of
   its own with a list for the system's sha256sum to check. */
#include "pajurenda.h"

#include <inttypes.h>
#include <stdio.h>
#include <stdlib.h>
#include <string.h>

#include "images.h"
#include "lent.h"
#include "../second/sha256.h"

#define MOST ((size_t)16777216 + 77)
#define ANSWER_ROOM ((size_t)4096)

static uint8_t *message;
static uint8_t wanted[ANSWER_ROOM];
static struct lent lent_in, lent_out;
static uint64_t seen[101];
static unsigned files;
static const char *folder;
static FILE *list;

static void differ(const char *what)
{
	printf("different: %s\n%s", what, whereabouts);
	exit(1);
}

/* One call on both sides: the number, the answer's bytes and what lies around them, the message as it was. */
static void same(size_t length, size_t room)
{
	snprintf(whereabouts, sizeof whereabouts, "a message of %zu bytes, room %zu\n", length, room);
	fill_bytes(wanted, room);
	lend(&lent_in, message, length);
	lend(&lent_out, wanted, room);
	const uint32_t number = pajurenda_sha256(lent_in.at, length, lent_out.at, room);
	if (room >= PAJURENDA_SHA256_BYTES)
		second_sha256(message, length, wanted);
	if (number != (room >= PAJURENDA_SHA256_BYTES ? PAJURENDA_ACCEPTED : PAJURENDA_SHORT))
		differ("the number");
	if (!same_lent(&lent_out, "answer", wanted) || !same_lent(&lent_in, "message", message))
		differ("a lent byte");
	seen[number]++;
}

/* The message and the library's own digest of it, for the system's tool. */
static void leave(size_t length)
{
	uint8_t digest[PAJURENDA_SHA256_BYTES];
	char name[4096];
	if (pajurenda_sha256(message, length, digest, sizeof digest) != PAJURENDA_ACCEPTED)
		differ("the number");
	snprintf(name, sizeof name, "%s/%u", folder, files++);
	FILE *file = fopen(name, "wb");
	if (file == NULL || fwrite(message, 1, length, file) != length || fclose(file) != 0) {
		perror(name);
		exit(2);
	}
	for (size_t i = 0; i < sizeof digest; i++)
		fprintf(list, "%02x", digest[i]);
	fprintf(list, "  %s\n", name);
}

static void both(size_t length)
{
	same(length, PAJURENDA_SHA256_BYTES);
	leave(length);
}

/* Every length of up to three blocks and more, those around later blocks' ends, a large one; every answer that is too short. */
static void try_bounds(void)
{
	static const size_t around[] = { 247, 248, 255, 256, 257, 4095, 4096, 4151, 4152, 65535, 65536, 65591, 65592 };
	for (size_t length = 0; length <= 200; length++)
		both(length);
	for (size_t i = 0; i < sizeof around / sizeof around[0]; i++)
		both(around[i]);
	both(MOST);
	for (size_t room = 0; room < PAJURENDA_SHA256_BYTES; room++)
		same(room * 7, room);
}

int main(int count, char **words)
{
	if (count != 4) {
		fputs("usage: compare_digest FOLDER SEED DRAWS\n", stderr);
		return 2;
	}
	folder = words[1];
	numbers_from(number_of(words[2]));
	const uint64_t draws = number_of(words[3]);
	char name[4096];
	snprintf(name, sizeof name, "%s/list", folder);
	list = fopen(name, "w");
	if (list == NULL) {
		perror(name);
		return 2;
	}
	message = memory(malloc(MOST));
	open_lent(&lent_in, (MOST / 65536 + 1) * 65536);
	open_lent(&lent_out, ANSWER_ROOM);
	watch_faults();
	fill_bytes(message, MOST);
	try_bounds();
	for (uint64_t i = 0; i < draws; i++) {
		const size_t length = (size_t)below(i % 10 == 0 ? 100000 : 1000);
		fill_bytes(message, length);
		same(length, (size_t)below(4) == 0 ? (size_t)below(100) : PAJURENDA_SHA256_BYTES);
		if (i % 10 == 0)
			leave(length);
	}
	if (fclose(list) != 0) {
		perror(name);
		return 2;
	}
	show_seen("sha256", seen);
	printf("SHA-256: %u messages left for the system's tool; none different from plain C\n", files);
	return 0;
}
