/*
 * What a line says that it replaces, or what the names lead to expect, held against what the library's
 * `setting` finds in the image: a line of another revision is seen by the bytes that it meets.
 */
#include <stdio.h>
#include <string.h>

#include "changes.h"
#include "making.h"
#include "messages.h"
#include "show.h"

/* What stands in the image where the entry goes; the library has taken the entry. */
static const uint8_t *present(const struct making *m)
{
	const struct written *written = m->written;
	struct change change;
	return find_change(&m->image.bytes, written->offset, written->bytes, written->length, &change)
		       ? change.old : NULL;
}

/* Both bytes, the expected and the found ones. */
static void say_both(const struct making *m, const uint8_t *expected, const uint8_t *found)
{
	const size_t length = m->written->length, shown = length < 16 ? length : 16;
	show_apart(stderr, expected, shown);
	fputs(shown < length ? " .." : "", stderr);
	fputs(", but ", stderr);
	say_name(m->image.name);
	fputs(" has ", stderr);
	show_apart(stderr, found, shown);
	fputs(shown < length ? " .." : "", stderr);
}

/* What the line says is replaced isn't there. */
static enum status refuse_was(const struct making *m, const uint8_t *found)
{
	begin_fault(&m->text);
	if (m->written->label != NULL)
		fprintf(stderr, "%s, ", m->written->label->name);
	fputs("offset ", stderr);
	show_offset(stderr, m->written->offset);
	fputs(": was ", stderr);
	say_both(m, m->written->old, found);
	fputs(": the line was written for other bytes than these\n", stderr);
	return FAILED;
}

/* A name whose default isn't what the image has may be of another revision: only who writes what is
   replaced sets it by its name. */
static enum status refuse_default(const struct making *m, const uint8_t *found)
{
	begin_fault(&m->text);
	fprintf(stderr, "%s, offset ", m->written->label->name);
	show_offset(stderr, m->written->offset);
	fputs(": its default is ", stderr);
	say_both(m, m->written->label->given, found);
	fputs(": the names may be of another revision; where they are not, write what is replaced after was\n",
	      stderr);
	return FAILED;
}

/* The entry replaces what it says, or what the names lead to expect. */
enum status check_replaced(const struct making *m)
{
	const struct written *written = m->written;
	const struct label *label = written->label;
	const uint8_t *found = present(m);
	if (found == NULL)
		return fail_answer();
	if (written->was && memcmp(written->old, found, written->length) != 0)
		return refuse_was(m, found);
	if (!written->was && label != NULL && label->given != NULL &&
	    memcmp(label->given, found, written->length) != 0)
		return refuse_default(m, found);
	return FINE;
}
