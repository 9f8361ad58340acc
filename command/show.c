/* Bytes shown as text or in hex. */
#include "show.h"

#include <inttypes.h>

#include "pajurenda.h"

/* All of these bytes are printable. */
bool is_printable(const uint8_t *bytes, size_t count)
{
	for (size_t i = 0; i < count; i++)
		if (bytes[i] < 32 || bytes[i] > 126)
			return false;
	return true;
}

/* Printable bytes as text. */
void show_text(FILE *to, const uint8_t *bytes, size_t count)
{
	fprintf(to, "\"%.*s\"", (int)count, (const char *)bytes);
}

/* Bytes in their order, two digits each. */
void show_hex(FILE *to, const uint8_t *bytes, size_t count)
{
	for (size_t i = 0; i < count; i++)
		fprintf(to, "%02X", (unsigned)bytes[i]);
}

/* The same with a blank between them, as a text of a sheet has them. */
void show_apart(FILE *to, const uint8_t *bytes, size_t count)
{
	for (size_t i = 0; i < count; i++)
		fprintf(to, "%s%02X", i == 0 ? "" : " ", (unsigned)bytes[i]);
}

/* An offset of the region, as makers write it. */
void show_offset(FILE *to, uint64_t offset)
{
	fprintf(to, "0x%04" PRIX64, offset);
}

/* The eight bytes of an identity, and as text where they are printable. */
void show_identity(FILE *to, const uint8_t *identity)
{
	show_hex(to, identity, 8);
	if (!is_printable(identity, 8))
		return;
	fputc(' ', to);
	show_text(to, identity, 8);
}

/* Major, minor, revision and build, each with both its halves. */
void show_image_version(FILE *to, uint64_t revision, uint64_t extended)
{
	fprintf(to, "%u.%u.%u.%u", pajurenda_image_major(revision), pajurenda_image_minor(revision),
		pajurenda_image_revision(revision, extended),
		pajurenda_image_build(revision, extended));
}

/* What binds a text or a sheet to an image, in the lines that `read` has; before the version, which only
   follows from the others, stands this. */
void show_bound(FILE *to, const uint8_t *identity, uint64_t revision, uint64_t extended,
		const char *before)
{
	fputs("identity ", to);
	show_identity(to, identity);
	fprintf(to, "\nrevision 0x%08" PRIX64 "\nextended 0x%04" PRIX64 "%s", revision, extended, before);
	show_image_version(to, revision, extended);
	fputc('\n', to);
}

/* A GUID of 16 stored bytes, in the form people write it. */
void show_guid(FILE *to, const uint8_t *guid)
{
	fprintf(to, "%08" PRIX64 "-%04" PRIX64 "-%04" PRIX64 "-", pajurenda_number(guid, 4),
		pajurenda_number(guid + 4, 2), pajurenda_number(guid + 6, 2));
	show_hex(to, guid + 8, 2);
	fputc('-', to);
	show_hex(to, guid + 10, 6);
}
