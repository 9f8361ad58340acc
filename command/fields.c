/*
 * Which field of the FSP header, of the extended header or of the patch table a position lies in. For showing
 * alone: the library says that a byte there is a stray, whatever the field is called.
 */
#include "fields.h"

#include <inttypes.h>

/* The FSP header's fields in their order, each up to where the next one starts; as the FSP specification has
   them, by the names that `read` shows where it shows them. */
static const struct {
	unsigned start;
	const char *name;
} fields[] = {
	{ 0, "header mark" }, { 4, "header length" }, { 8, "reserved" }, { 10, "specification version" },
	{ 11, "header revision" }, { 12, "image revision" }, { 16, "identity" }, { 24, "image size" },
	{ 28, "base" }, { 32, "image attributes" }, { 34, "component" }, { 36, "region position" },
	{ 40, "region size" }, { 44, "reserved" }, { 48, "TempRamInit entry" }, { 52, "reserved" },
	{ 56, "NotifyPhase entry" }, { 60, "MemoryInit entry" }, { 64, "TempRamExit entry" },
	{ 68, "SiliconInit entry" }, { 72, "multi-phase SiliconInit entry" }, { 76, "extended number" },
	{ 78, "reserved" }, { 80, "multi-phase MemoryInit entry" }, { 84, "SmmInit entry" },
	{ 88, "rest of the header" },
};

#define FIELDS (sizeof fields / sizeof fields[0])

/* After them, in the numbers that stand for fields: the extended header, the patch table's, and its entries. */
enum { EXTENDED_HEADER = FIELDS, TABLE_HEADER, FIRST_ENTRY };

/* The field of a position of the header and the tables. */
uint64_t field_at(const struct letters *w, uint64_t at)
{
	uint64_t field = FIELDS;
	if (at >= w->p + 12)
		return FIRST_ENTRY + (at - w->p - 12) / 4;
	if (at >= w->p)
		return TABLE_HEADER;
	if (at >= w->g)
		return EXTENDED_HEADER;
	while (field > 1 && at - w->H < fields[field - 1].start)
		field--;
	return field - 1;
}

/* Its name; a patch entry's number is counted from 0. */
void put_field(FILE *to, uint64_t field)
{
	if (field >= FIRST_ENTRY)
		fprintf(to, "patch entry %" PRIu64, field - FIRST_ENTRY);
	else
		fputs(field == TABLE_HEADER ? "patch table's header"
		      : field == EXTENDED_HEADER ? "extended header" : fields[field].name, to);
}
