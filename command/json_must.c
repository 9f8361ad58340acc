/* What must be, as a member of a document. */
#include <inttypes.h>
#include <stdio.h>

#include "json.h"
#include "must.h"
#include "signs.h"

/* One thing that must be, with what is, and what the maker's image has. */
static void write_need(const struct need *need, const char *before)
{
	const struct change *change = &need->change;
	printf("%s\n      {\"line\": %zu, \"offset\": %" PRIu64 ", \"place\": %" PRIu64 ", \"length\": %zu"
	       ", \"name\": ", before, need->line, change->offset, change->place, change->length);
	if (need->label == NULL)
		fputs("null", stdout);
	else
		put_json_text(stdout, need->label->name);
	fputs(", \"must\": ", stdout);
	json_bytes(need->bytes, change->length);
	fputs(", \"is\": ", stdout);
	if (need->is == NULL)
		fputs("null", stdout);
	else
		json_bytes(need->is, change->length);
	fputs(", \"makers\": ", stdout);
	json_bytes(change->old, change->length);
	printf(", \"held\": %s}", need->held ? "true" : "false");
}

/* What must be; null where nothing was asked for. */
void json_must(const struct must *must)
{
	fputs(",\n  \"must\": ", stdout);
	if (must->file.name == NULL) {
		fputs("null", stdout);
		return;
	}
	fputs("{\"file\": ", stdout);
	put_json_text(stdout, must->file.name);
	fputs(", \"base\": {\"must\": ", stdout);
	if (must->any_base)
		fputs("null", stdout);
	else
		printf("\"0x%08" PRIX64 "\"", must->base);
	printf(", \"is\": \"0x%08" PRIX64 "\", \"makers\": \"0x%08" PRIX64 "\", \"held\": %s}, \"settings\": [",
	       must->is_base, must->makers_base, is_base_held(must) ? "true" : "false");
	for (size_t i = 0; i < must->count && ferror(stdout) == 0; i++)
		write_need(&must->need[i], i == 0 ? "" : ",");
	fputs(must->count == 0 ? "]}" : "\n    ]}", stdout);
}
