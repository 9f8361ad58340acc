/* The page's verdict, in words. */
#include <inttypes.h>

#include "edition.h"
#include "mending.h"
#include "page.h"
#include "signs.h"

/* The verdict's sentence of an audit of edition 1. */
static void say_older(FILE *to, uint64_t strays)
{
	if (strays == 0)
		fputs("Byte for byte, the shipped file is the maker's image: no byte differs.", to);
	else
		put_plural(to, strays, "byte differs.", "bytes differ.");
	fprintf(to, " An edition 1 image is compared %s.", byte_for_byte);
}

/* The verdict's sentence of an audit. */
static void say_audit(const struct page *page)
{
	const uint64_t settings = count_of(page->check, PAJURENDA_AUDIT_SETTINGS);
	const uint64_t strays = count_of(page->check, PAJURENDA_AUDIT_STRAYS);
	FILE *to = page->to;
	if (is_older(page->check->reading)) {
		say_older(to, strays);
	} else if (strays != 0) {
		put_plural(to, strays, "byte differs", "bytes differ");
		fputs(" outside the settings, and neither the move nor a setting accounts for ", to);
		fputs(strays == 1 ? "it." : "them.", to);
	} else if (settings == 0) {
		fputs("Moved to the shipped base, the maker's image is the shipped file: "
		      "no byte differs.", to);
	} else {
		put_plural(to, settings, "byte differs, and it is a setting.",
			   "bytes differ, and every one is a setting.");
		fputs(" All else is the maker's image, moved.", to);
	}
}

/* What was put back, and into which file. */
static void say_put_back(const struct page *page, uint64_t strays)
{
	FILE *to = page->to;
	if (strays == 0) {
		fputs("No byte outside the settings differs: there was nothing to put back, and ", to);
		put_page_text(to, page->check->mended.name);
		fputs(" has the shipped file's bytes.", to);
		return;
	}
	put_plural(to, strays, "byte of the shipped file differed", "bytes of the shipped file differed");
	fputs(" outside the settings. In ", to);
	put_page_text(to, page->check->mended.name);
	fputs(strays == 1 ? " it is the maker's again, moved, and no other byte was changed."
			  : " each is the maker's again, moved, and no other byte was changed.", to);
}

/* The verdict's sentence of a mending: what was put back, and what is left. */
static void say_mended(const struct page *page)
{
	const uint64_t settings = count_of(page->check, PAJURENDA_AUDIT_SETTINGS);
	say_put_back(page, count_of(page->check, PAJURENDA_AUDIT_STRAYS));
	if (settings == 0) {
		fputs(" No setting differs from the maker's: all of it is the maker's image, moved.", page->to);
		return;
	}
	fputs(" What is left: ", page->to);
	put_plural(page->to, settings, "byte that differs, and it is a setting,", "bytes that differ, and every one is a setting,");
	fputs(" as in the shipped file.", page->to);
}

/* Entries that set what the maker's image has already. */
static void say_idle(const struct page *page)
{
	uint64_t entries = 0;
	const uint64_t idle = count_idle(page->check, &entries);
	if (idle == 0)
		return;
	fprintf(page->to, " %" PRIu64 " of ", idle);
	put_plural(page->to, entries, "entry", "entries");
	fprintf(page->to, " change%s nothing: the maker's image has these bytes already.", idle == 1 ? "s" : "");
}

/* The verdict's sentence of a verify. */
static void say_verify(const struct page *page, const struct tally *tally)
{
	FILE *to = page->to;
	if (is_good(page->check)) {
		fputs(page->check->record.name != NULL
			      ? "Byte for byte, the shipped file is what the steps of the record make of the maker's image."
			      : "Byte for byte, the shipped file is what releasing the maker's image with the sheets "
				"below, in their order, to its base makes.", to);
		say_idle(page);
		if (is_accounted(page->check))
			fputs(" So file and sheets account for every byte: what differs from the maker's image are the words of the "
			      "move, and the settings that the sheets, applied in order, change.", to);
		return;
	}
	if (differences(&page->check->found) == 0) {
		fputs("At the base that it must be at, the file would be as released; it is at another.", to);
		return;
	}
	put_plural(to, differences(&page->check->found), "byte is", "bytes are");
	fputs(" not what the release makes: ", to);
	put_plural(to, tally->sheets, "in a setting that a sheet sets", "in settings that a sheet sets");
	fprintf(to, " (%" PRIu64 " still as the maker's), ", tally->makers);
	put_plural(to, tally->others, "in a setting that no sheet sets", "in settings that no sheet sets");
	fprintf(to, ", %" PRIu64 " outside the settings.", tally->strays);
}

/* A refusal: number, name, rule and file. */
static void say_refusal(const struct page *page)
{
	const struct check *check = page->check;
	fprintf(page->to, "Refusal %" PRIu32 " %s of ", check->number, pajurenda_name(check->number));
	put_page_text(page->to, check->refused->name);
	fputs(": ", page->to);
	put_page_text(page->to, pajurenda_sentence(check->number));
	if (pajurenda_has_index(check->number) != 0)
		fprintf(page->to, "; patch entry %" PRIu64 ", counted from 0", check->index);
	fputs(is_mending(check) ? ". Nothing was compared, and nothing put back." : ". Nothing was compared.", page->to);
}

/* The values that decided, as they stand on standard error too. */
static void say_values(const struct page *page)
{
	if (refusal_values() == NULL)
		return;
	fputs("<p class=\"values\">", page->to);
	put_page_text(page->to, refusal_values());
	fputs("</p>\n", page->to);
}

/* Whether everything is there that must be, and how much isn't; nothing where nothing must be. */
static void say_required(const struct page *page)
{
	const struct must *must = &page->check->must;
	if (must->file.name == NULL)
		return;
	fprintf(page->to, "<p>Of what must be, %" PRIu64 " of ", count_held(must) + is_base_held(must));
	put_plural(page->to, must->count + 1, "line is held.</p>\n", "lines are held.</p>\n");
}

/* The base that is demanded, and which other image of the record the file is. */
static void say_wanted(const struct page *page)
{
	const struct check *check = page->check;
	if (check->has_base)
		fprintf(page->to, "<p>The base is 0x%08" PRIX64 "; by %s it must be 0x%08" PRIX64 ".</p>\n",
			count_of(check, PAJURENDA_AUDIT_BASE), check->record.name != NULL ? "the record" : "--base",
			check->base);
	if (other_of(check) != NULL)
		fprintf(page->to, "<p>The file is %s.</p>\n", other_of(check));
}

/* What is left open, and what is to be known of the files. */
static void say_open(const struct page *page, const char *unchecked)
{
	if (unchecked != NULL)
		fprintf(page->to, "<p class=\"unchecked\">Not checked: %s.</p>\n", unchecked);
	if (page->check->agreed.found) {
		fputs("<p class=\"unchecked\">", page->to);
		put_agreed(page->to, page->check);
		fputs(": the base word may be damaged.</p>\n", page->to);
	}
	for (size_t i = 0; i < page->check->note_count; i++) {
		fputs("<p class=\"unchecked\">", page->to);
		put_page_text(page->to, page->check->notes[i]);
		fputs(".</p>\n", page->to);
	}
}

/* In words, large; its kind also by the frame. */
void put_verdict(const struct page *page, const struct tally *tally)
{
	const bool refused = page->check->number != PAJURENDA_ACCEPTED;
	const char *unchecked = unchecked_of(page->check);
	fprintf(page->to, "<section class=\"verdict %s\">\n<p class=\"word\">",
		!is_fine(page->check) ? "bad" : unchecked != NULL ? "open" : "good");
	put_verdict_words(page);
	fputs("</p>\n<p>", page->to);
	if (refused)
		say_refusal(page);
	else if (page->check->verify)
		say_verify(page, tally);
	else if (is_mending(page->check))
		say_mended(page);
	else
		say_audit(page);
	fputs("</p>\n", page->to);
	if (refused)
		say_values(page);
	else
		say_required(page);
	if (!refused)
		say_wanted(page);
	say_open(page, unchecked);
	fputs("</section>\n", page->to);
}
