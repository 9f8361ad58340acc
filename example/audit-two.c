/*
 * Audits a shipped file against the vendor's image, as `pajurenda audit` does: the verdict and every
 * difference. From the repository's folder, after `tools/build`:
 *
 *     cc -Iinclude example/audit-two.c target/staticlib/libpajurenda.a -o audit-two
 *     ./audit-two VENDOR SHIPPED
 *
 * Exit status: 0 explained, 1 unexplained, 2 refused or failed.
 */
#include "pajurenda.h"

#include <stdio.h>
#include <stdlib.h>

/* One byte more than the longest image: the library refuses whatever is longer. */
#define MOST ((size_t)PAJURENDA_MOST_IMAGE + 1)

struct bytes {
	uint8_t *at;
	size_t length;
};

/* A file's first bytes, at most MOST; at NULL after a message. */
static struct bytes load(const char *name)
{
	struct bytes bytes = { malloc(MOST), 0 };
	FILE *file = fopen(name, "rb");

	if (file != NULL && bytes.at != NULL)
		bytes.length = fread(bytes.at, 1, MOST, file);
	if (file == NULL || bytes.at == NULL || ferror(file)) {
		perror(name);
		free(bytes.at);
		bytes.at = NULL;
	}
	if (file != NULL)
		fclose(file);
	return bytes;
}

/* How many bytes differ, by an answer of the audit. */
static size_t differences(const uint8_t *answer)
{
	return (size_t)(pajurenda_field(answer, PAJURENDA_AUDIT_SETTINGS) +
			pajurenda_field(answer, PAJURENDA_AUDIT_STRAYS));
}

/* The verdict and every difference; the exit status. */
static int show(const uint8_t *answer, const uint8_t *places)
{
	const int explained = pajurenda_field(answer, PAJURENDA_AUDIT_EXPLAINED) == 1;

	printf("%s, shipped at 0x%08lX\n", explained ? "explained" : "unexplained",
	       (unsigned long)pajurenda_field(answer, PAJURENDA_AUDIT_BASE));
	for (size_t i = 0; i < differences(answer); i++) {
		const uint32_t place = pajurenda_place(places, i);
		printf("%s at %lu\n", pajurenda_is_stray(place) ? "stray" : "setting",
		       (unsigned long)pajurenda_position(place));
	}
	return explained ? 0 : 1;
}

/* The refusal's number, name and rule, and the patch entry that it names. */
static void refuse(uint32_t number, const uint8_t *answer)
{
	fprintf(stderr, "refused %lu %s: %s", (unsigned long)number, pajurenda_name(number),
		pajurenda_sentence(number));
	if (pajurenda_has_index(number))
		fprintf(stderr, " (entry %lu, counted from 0)",
			(unsigned long)pajurenda_field(answer, PAJURENDA_AUDIT_INDEX));
	fputc('\n', stderr);
}

/* The audit, first with an empty list; refusal 20 then says how long a list it wants. */
static int audit(struct bytes vendor, struct bytes shipped)
{
	uint8_t answer[PAJURENDA_AUDIT_BYTES], none[1], *places = NULL;
	int status = 2;
	uint32_t number = pajurenda_audit(vendor.at, vendor.length, shipped.at, shipped.length,
					  none, 0, answer, sizeof answer);

	if (number == PAJURENDA_ROOM) {
		const size_t room = differences(answer) * PAJURENDA_PLACE_BYTES;
		places = malloc(room);
		if (places == NULL) {
			perror("list of differences");
			return 2;
		}
		number = pajurenda_audit(vendor.at, vendor.length, shipped.at, shipped.length,
					 places, room, answer, sizeof answer);
	}
	if (number == PAJURENDA_ACCEPTED)
		status = show(answer, places);
	else
		refuse(number, answer);
	free(places);
	return status;
}

int main(int count, char **word)
{
	int status = 2;

	if (count != 3) {
		fprintf(stderr, "usage: audit-two VENDOR SHIPPED\n");
		return 2;
	}
	const struct bytes vendor = load(word[1]), shipped = load(word[2]);
	if (vendor.at != NULL && shipped.at != NULL)
		status = audit(vendor, shipped);
	free(vendor.at);
	free(shipped.at);
	const int lost = ferror(stdout);
	if (fclose(stdout) != 0 || lost) {
		perror("standard output");
		return 2;
	}
	return status;
}
