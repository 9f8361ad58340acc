/* What the maker's image and the shipped file say of themselves, side by side, and the counts. */
#include <inttypes.h>
#include <string.h>

#include "edition.h"
#include "letters.h"
#include "page.h"
#include "show.h"

/* Where these stand after the FSP header's start. */
enum { REVISION_AT = 12, IDENTITY_AT = 16, BASE_AT = 28, COMPONENT_AT = 34, EXTENDED_AT = 76 };

/* What one file says of itself; the places are those of the library's reading of the maker's image. */
struct self {
	uint8_t identity[8];
	uint64_t revision, extended, base, component;
};

/* The extended number only where the maker's image has one: below header revision 6 its bytes are others. */
static struct self self_of(const struct bytes *file, uint64_t header, bool extends)
{
	struct self self = { .revision = number_at(file, header + REVISION_AT, 4),
			     .extended = extends ? number_at(file, header + EXTENDED_AT, 2) : 0,
			     .base = number_at(file, header + BASE_AT, 4),
			     .component = number_at(file, header + COMPONENT_AT, 2) >> 12 };
	if (has_bytes(file, header + IDENTITY_AT, sizeof self.identity))
		memcpy(self.identity, file->at + header + IDENTITY_AT, sizeof self.identity);
	return self;
}

/* ---- side by side ---- */

/* The row's last cell: whether both are alike. */
static void end_row(FILE *to, bool alike, const char *otherwise)
{
	fprintf(to, "</td><td>%s%s%s</td></tr>\n", alike ? "" : "<strong>", alike ? "the same" : otherwise,
		alike ? "" : "</strong>");
}

/* A number of both. */
static void put_pair(FILE *to, const char *name, unsigned digits, uint64_t one, uint64_t other)
{
	fprintf(to, "<tr><td>%s</td><td class=\"bytes\">0x%0*" PRIX64 "</td><td class=\"bytes\">0x%0*" PRIX64, name,
		(int)digits, one, (int)digits, other);
	end_row(to, one == other, "differs");
}

/* Eight bytes in hex, and as text where all are printable. */
static void put_identity(FILE *to, const uint8_t *identity)
{
	show_hex(to, identity, 8);
	if (!is_printable(identity, 8))
		return;
	fputs(" “", to);
	for (size_t i = 0; i < 8; i++)
		fprintf(to, "&#%u;", (unsigned)identity[i]);
	fputs("”", to);
}

static void put_identities(FILE *to, const struct self *one, const struct self *other)
{
	fputs("<tr><td>Identity</td><td class=\"bytes\">", to);
	put_identity(to, one->identity);
	fputs("</td><td class=\"bytes\">", to);
	put_identity(to, other->identity);
	end_row(to, memcmp(one->identity, other->identity, sizeof one->identity) == 0, "differs");
}

/* By the maker's edition. */
static void put_version(FILE *to, const struct self *self, bool older)
{
	if (older)
		show_older_version(to, self->revision);
	else
		show_image_version(to, self->revision, self->extended);
}

static void put_versions(FILE *to, const struct self *one, const struct self *other, bool older)
{
	fputs("<tr><td>Version</td><td class=\"bytes\">", to);
	put_version(to, one, older);
	fputs("</td><td class=\"bytes\">", to);
	put_version(to, other, older);
	end_row(to, one->revision == other->revision && one->extended == other->extended, "differs");
}

/* The component's letter, or what stands in its place. */
static char letter_of(uint64_t component)
{
	return "?TMSI"[component <= 4 ? component : 0];
}

/* The base differs where it was moved, which is no fault; by how much, in both forms. */
static void put_bases(const struct page *page, const struct self *one, const struct self *other)
{
	char moved[80];
	const int64_t move = pajurenda_signed_field(page->check->moved, PAJURENDA_RELEASE_MOVE);
	const uint64_t far = move < 0 ? 0 - (uint64_t)move : (uint64_t)move;
	snprintf(moved, sizeof moved, "moved by %+" PRId64 ", %c0x%08" PRIX64, move, move < 0 ? '-' : '+', far);
	fprintf(page->to, "<tr><td>Base</td><td class=\"bytes\">0x%08" PRIX64 "</td><td class=\"bytes\">0x%08" PRIX64
		"</td><td>%s</td></tr>\n", one->base, other->base, move == 0 ? "the same" : moved);
}

/* Whether the library takes the shipped file as an image by itself: no part of the verdict, but worth knowing. */
static void put_reads(const struct page *page)
{
	uint8_t reading[PAJURENDA_READ_BYTES] = { 0 };
	const struct bytes *shipped = &page->check->shipped.bytes;
	const uint32_t number = pajurenda_read(shipped->at, shipped->length, reading, sizeof reading);
	fputs("<tr><td>Reads by itself</td><td>yes</td><td>", page->to);
	if (number == PAJURENDA_ACCEPTED)
		fputs("yes", page->to);
	else
		fprintf(page->to, "no: refusal %" PRIu32 " %s", number, pajurenda_name(number));
	end_row(page->to, number == PAJURENDA_ACCEPTED, "differs");
}

/* The component of both, or that the maker's image is of edition 1; what the shipped file is then, its own reading tells. */
static void put_kinds_of(const struct page *page, const struct self *one, const struct self *other)
{
	uint8_t reading[PAJURENDA_READ_BYTES] = { 0 };
	const struct bytes *shipped = &page->check->shipped.bytes;
	if (!is_older(page->check->reading)) {
		fprintf(page->to, "<tr><td>Component</td><td>%c</td><td>%c", letter_of(one->component),
			letter_of(other->component));
		end_row(page->to, one->component == other->component, "differs");
		return;
	}
	const bool reads = pajurenda_read(shipped->at, shipped->length, reading, sizeof reading) == PAJURENDA_ACCEPTED;
	fprintf(page->to, "<tr><td>Edition</td><td>1</td><td>%s",
		!reads ? "not known" : is_older(reading) ? "1" : "2");
	end_row(page->to, reads && is_older(reading), "differs");
}

/* What each says of itself. */
static void put_selves(const struct page *page)
{
	const struct check *check = page->check;
	const uint64_t header = pajurenda_field(check->reading, PAJURENDA_READ_HEADER);
	const bool extends = number_at(&check->vendor.bytes, header + 11, 1) >= 6;
	const struct self one = self_of(&check->vendor.bytes, header, extends);
	const struct self other = self_of(&check->shipped.bytes, header, extends);
	fputs("<section>\n<h2>What both files say of themselves</h2>\n<table class=\"selves\">\n<thead><tr><th>What</th>"
	      "<th>Maker's image</th><th>Shipped file</th><th>Alike</th></tr></thead>\n<tbody>\n", page->to);
	put_reads(page);
	put_kinds_of(page, &one, &other);
	put_identities(page->to, &one, &other);
	put_pair(page->to, "Revision", 8, one.revision, other.revision);
	put_pair(page->to, "Extended number", 4, one.extended, other.extended);
	put_versions(page->to, &one, &other, is_older(check->reading));
	if (is_older(check->reading))
		put_pair(page->to, "Base", 8, one.base, other.base);
	else
		put_bases(page, &one, &other);
	fputs("</tbody>\n</table>\n</section>\n", page->to);
}

/* ---- the counts ---- */

static void put_number(FILE *to, const char *name, uint64_t value)
{
	fprintf(to, "<div><dt>%s</dt><dd>%" PRIu64 "</dd></div>\n", name, value);
}

/* Where the maker's image has its parts. */
static void put_image(FILE *to, const uint8_t *reading, const struct contents *contents)
{
	put_number(to, "FSP header at", pajurenda_field(reading, PAJURENDA_READ_HEADER));
	if (is_older(reading))
		return;
	put_number(to, "Patch entries", pajurenda_field(reading, PAJURENDA_READ_COUNT));
	put_number(to, "Region at", pajurenda_field(reading, PAJURENDA_READ_REGION));
	put_number(to, "Region's bytes", pajurenda_field(reading, PAJURENDA_READ_SIZE));
	put_number(to, "Modules", count_modules(contents));
	put_number(to, "Words that a move changes", count_moved(contents));
}

/* The count of an edition 1 image's differences, and what it counts. */
static void put_older_counts(const struct page *page)
{
	put_number(page->to, "Stray bytes", count_of(page->check, PAJURENDA_AUDIT_STRAYS));
	fputs("</dl>\n<p class=\"note\">An edition 1 image isn't moved, so that every byte that differs is a "
	      "stray, those of the base word too.</p>\n</section>\n", page->to);
}

/* Both tables, and the counts of the check. */
void put_facts(const struct page *page)
{
	const struct check *check = page->check;
	put_selves(page);
	fputs("<section>\n<h2>Where the maker's image has its parts</h2>\n<dl>\n", page->to);
	put_image(page->to, check->reading, &check->contents);
	fprintf(page->to, "</dl>\n</section>\n<section>\n<h2>The shipped file, against %s</h2>\n<dl>\n",
		reference_name(check));
	if (is_older(check->reading)) {
		put_older_counts(page);
		return;
	}
	put_number(page->to, "Setting bytes that differ", count_of(check, PAJURENDA_AUDIT_SETTINGS));
	put_number(page->to, "Bits of them", count_of(check, PAJURENDA_AUDIT_BITS));
	put_number(page->to, "Stray bytes", count_of(check, PAJURENDA_AUDIT_STRAYS));
	fputs("</dl>\n<p class=\"note\">A setting is a byte of the configuration region after its header; "
	      "a stray is any other byte that differs.</p>\n</section>\n", page->to);
}
