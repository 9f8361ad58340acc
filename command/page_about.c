/* Who made the page, when and how: its top, its signature, and what it says of itself. */
#include <inttypes.h>

#include "about.h"
#include "digest.h"
#include "help.h"
#include "mending.h"
#include "page.h"
#include "signs.h"

/* Something that is told in a line of its own, as text of the page. */
static void put_told(FILE *to, void (*tell)(FILE *to))
{
	struct made made;
	if (begin_made(&made))
		tell(made.line);
	end_made(to, &made);
}

/* The report's number and the remark, where they were given. */
static void put_given(const struct page *page, const char *class, const char *name, const char *text)
{
	if (text == NULL)
		return;
	fprintf(page->to, "<p class=\"%s\">%s ", class, name);
	put_page_text(page->to, text);
	fputs("</p>\n", page->to);
}

/* What was checked, when, by whom and by which tool. */
void put_top(const struct page *page)
{
	const struct check *check = page->check;
	fprintf(page->to, "<header>\n<p class=\"kind\">Firmware support image · %s</p>\n",
		check->verify ? "check against the release sheets"
		: is_mending(check) ? "mending by the maker's image" : "audit against the maker's image");
	put_given(page, "report-number", "Report", check->options->number);
	fputs("<h1>", page->to);
	put_page_text(page->to, check->shipped.name);
	fputs("</h1>\n<p class=\"made\">Made on <time>", page->to);
	put_told(page->to, put_time);
	fputs("</time> by ", page->to);
	put_told(page->to, put_user);
	fputs(" on ", page->to);
	put_told(page->to, put_host);
	fputs(", with pajurenda " PAJURENDA_VERSION ".</p>\n", page->to);
	put_given(page, "remark", "Note:", check->options->note);
	fputs("</header>\n", page->to);
}

/* Who signs, on paper. */
void put_sign_off(FILE *to)
{
	fputs("<section class=\"sign-off\">\n<p>Checked by</p><p>Date</p><p>Signature</p>\n</section>\n", to);
}

/* ---- what it says of itself ---- */

static void begin_fact(FILE *to, const char *name)
{
	fprintf(to, "<div><dt>%s</dt><dd>", name);
}

static void end_fact(FILE *to)
{
	fputs("</dd></div>\n", to);
}

/* A text from outside under its name. */
static void put_text(FILE *to, const char *name, const char *text)
{
	begin_fact(to, name);
	put_page_text(to, text);
	end_fact(to);
}

/* Which words of the page come from a proved call, and which from plain C. */
static void put_proved(FILE *to, const struct check *check)
{
	if (check->mended.name != NULL)
		put_text(to, "Proved, for every mending",
			 "what pajurenda_mend leaves: each byte outside the settings that differed is the maker's, moved, and no other "
			 "byte is changed; an audit of the mended file says explained, with the same base and settings");
	if (check->hex.name != NULL)
		put_text(to, "Proved, for every text",
			 "what pajurenda_hex_export writes: an import of it gives these bytes and this base back");
	put_text(to, "Proved, for every input",
		 "the answers of the library's calls: pajurenda_read (what the maker's image is), pajurenda_contents (its "
		 "modules, and the words of a move), pajurenda_release (what the shipped file should be), pajurenda_audit "
		 "(every byte that differs, which are settings, and the verdict of an audit), pajurenda_setting and "
		 "pajurenda_sheet (where settings lie)" PROVED_DIGEST);
	put_text(to, "Not proved, plain C",
		 "reading and writing the files, comparing counts with 0 for the verdict of a verify or a mending, and this page: "
		 "its words, maps and tables, names of fields, modules and settings" UNPROVED_DIGEST);
}

/* What nobody has looked at. */
static void put_unchecked(const struct page *page)
{
	begin_fact(page->to, "Not checked");
	if (unchecked_of(page->check) != NULL) {
		put_page_text(page->to, unchecked_of(page->check));
		fputs("; ", page->to);
	}
	put_page_text(page->to, "whether the file that is taken for the maker's is the maker's: its SHA-256 says which it is; "
				"check sums inside the image, which a move leaves as they were; what the firmware does");
	end_fact(page->to);
}

/* How the page came to be, for who wants to make it again. */
void put_about(const struct page *page)
{
	FILE *to = page->to;
	fputs("<section>\n<h2>How this page was made</h2>\n<dl class=\"about\">\n", to);
	begin_fact(to, "Command line");
	put_told(to, put_line);
	end_fact(to);
	put_text(to, "Library proved with", kit_name());
	put_text(to, "SHA-256 of the library's archive", archive_digest());
	put_proved(to, page->check);
	put_unchecked(page);
	fputs("</dl>\n</section>\n", to);
}
