/* The page's files: what each is here, where it lies, how long it is, and its digest. */
#include <inttypes.h>
#include <stdlib.h>
#include <string.h>

#include "about.h"
#include "digest.h"
#include "inputs.h"
#include "page.h"
#include "signs.h"

/* Of a file that is longer than any image no more was read than shows that. */
static bool is_whole(const struct named *file)
{
	return file->bytes.length <= PAJURENDA_MOST_IMAGE;
}

/* What stands in the place of a digest where there is none. */
static const char *digest_or_none(bool whole, bool taken, const char *digits)
{
	return !whole ? "not taken: the file is longer than any image and wasn't read to its end"
	       : taken ? digits : "not taken";
}

/* The digest of an image, which is as it was read. */
static const char *image_digest(const struct named *image, char *digits)
{
	const bool whole = is_whole(image);
	return digest_or_none(whole, whole && input_digest(&image->bytes, digits), digits);
}

/* A file as it was named, and its full path where that is another. */
static void put_path(FILE *to, const char *name)
{
	char *path = full_path(name);
	put_page_text(to, name);
	if (path != NULL && strcmp(path, name) != 0) {
		fputs("<div class=\"path\">", to);
		put_page_text(to, path);
		fputs("</div>", to);
	}
	free(path);
}

/* A file's row: what it is here, its name and path, its length, its digest. */
static void put_row(FILE *to, const char *role, const struct named *file, bool whole, const char *digest)
{
	fprintf(to, "<tr><td>%s</td><td class=\"file\">", role);
	put_path(to, file->name);
	fputs("</td><td class=\"number\">", to);
	if (whole)
		fprintf(to, "%zu", file->bytes.length);
	else
		fprintf(to, "more than %d", PAJURENDA_MOST_IMAGE);
	fprintf(to, "</td><td class=\"digest\">%s</td></tr>\n", digest);
}

/* A file whose digest is taken here. */
static void put_file(FILE *to, const char *role, const struct named *file, bool whole)
{
	char digits[DIGEST_DIGITS + 1];
	put_row(to, role, file, whole, digest_or_none(whole, whole && find_digest(&file->bytes, digits), digits));
}

/* One that was read beside the images. */
static void put_input(FILE *to, const char *role, const struct named *file)
{
	put_file(to, role, file, is_whole(file));
}

/* An image, whose digest is taken once for all that asks for it. */
static void put_image(FILE *to, const char *role, const struct named *image)
{
	char digits[DIGEST_DIGITS + 1];
	put_row(to, role, image, is_whole(image), image_digest(image, digits));
}

/* The owner lists, each with the sheets that were released by it and who released them. */
static void put_owners(const struct page *page)
{
	const struct check *check = page->check;
	char role[80];
	for (size_t i = 0; i < check->sheet_count; i++) {
		const struct releaser *releaser = &check->releasers[i];
		if (releaser->list == NULL)
			continue;
		snprintf(role, sizeof role, "Owner list, %" PRIu64 " asks for sheet %zu", releaser->owner, i + 1);
		put_input(page->to, role, &releaser->list->file);
	}
	const struct named record = { .name = check->record.name, .bytes = check->record.text };
	if (record.name != NULL)
		put_input(page->to, "Release record", &record);
}

/* The maker's image, and by whose word it is that. */
static void put_vendor(const struct page *page)
{
	const struct check *check = page->check;
	const char *by = check->vouched;
	put_image(page->to, by == NULL ? "Given as the maker's image" : check->record.name != NULL
			      ? "Maker's image, by the record" : strcmp(by, "--vendor-sha256") == 0
			      ? "Maker's image, by a given SHA-256" : "Maker's image, by a file beside it", &check->vendor);
}

/* The shipped file; of a mending also what became of it, and that as a text. */
static void put_shipped(const struct page *page)
{
	const struct check *check = page->check;
	put_image(page->to, check->mended.name != NULL ? "Shipped file, before" : "Shipped file", &check->shipped);
	if (check->mended.name != NULL)
		put_file(page->to, "Mended file, after", &check->mended, true);
	if (check->hex.name != NULL)
		put_file(page->to, "Mended file as Intel HEX", &check->hex, true);
}

/* Every file, in the order of the words. */
void put_files(const struct page *page)
{
	char role[40];
	fputs("<section class=\"checked\">\n<h2>Files</h2>\n<table class=\"files\">\n<thead><tr><th>What</th><th>Name</th>"
	      "<th class=\"number\">Bytes</th><th>SHA-256 of these bytes</th></tr></thead>\n<tbody>\n",
	      page->to);
	put_vendor(page);
	for (size_t i = 0; i < page->check->sheet_count; i++) {
		snprintf(role, sizeof role, "Sheet %zu", i + 1);
		put_input(page->to, role, &page->check->sheets[i]);
	}
	put_owners(page);
	put_shipped(page);
	if (page->check->must.file.name != NULL)
		put_input(page->to, "What must be", &page->check->must.file);
	if (page->check->naming.file.name != NULL)
		put_input(page->to, "Names", &page->check->naming.file);
	if (page->text != NULL)
		put_file(page->to, "Whole list", page->text, true);
	fputs("</tbody>\n</table>\n</section>\n", page->to);
}

/* What the names are under: the verdict, and the file that it is of; of a mending that is the mended one. */
void put_signed_for(const struct page *page)
{
	const struct named *mended = &page->check->mended;
	char digits[DIGEST_DIGITS + 1];
	fputs("<p class=\"signed-for\">Signed for: <strong>", page->to);
	put_verdict_words(page);
	fputs("</strong>, of ", page->to);
	put_page_text(page->to, mended->name != NULL ? mended->name : page->check->shipped.name);
	fprintf(page->to, " with SHA-256 <span class=\"digest\">%s</span></p>\n",
		mended->name == NULL ? image_digest(&page->check->shipped, digits)
				     : digest_or_none(true, find_digest(&mended->bytes, digits), digits));
}
