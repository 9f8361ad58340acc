/*
 * audit VENDOR SHIPPED: every difference between the shipped file and the vendor's image moved.
 * verify VENDOR SHEET.. SHIPPED: is the shipped file the release of the vendor's image with these sheets?
 */
#include "checking.h"
#include "list.h"
#include "messages.h"
#include "numbers.h"
#include "vouched.h"

/* Two options that can't stand together; NULL where there is none. */
const char *find_clash(unsigned options)
{
	const unsigned forms = options & (BYTES | RANGES | JSON | QUIET);
	if ((forms & QUIET) != 0 && forms != QUIET)
		return "-q shows nothing: no other form goes with it";
	if ((forms & JSON) != 0 && forms != JSON)
		return "--json has both bytes and ranges: no other form goes with it";
	if ((options & (OWNERS | OWNER)) == OWNERS)
		return "--owner N is missing: who released by LIST, 1 or 2";
	if ((options & (OWNERS | OWNER)) == OWNER)
		return "--owners LIST is missing: whose each setting is; without both every setting is owner 1's";
	if ((options & (LIST | REPORTS)) == REPORTS)
		return "--reports goes with --list; of one pair --report FILE is the page";
	if ((options & (NOTE | KNOWN_BY)) != 0 && (options & (REPORT | REPORTS | JSON)) == 0)
		return "--note and --number are for the page: --report FILE is missing";
	if ((options & LIST) == 0)
		return NULL;
	if ((options & KNOWN_BY) != 0)
		return "--number is one report's: with --list a page is known by its line";
	if ((options & (REPORT | TEXT)) != 0)
		return "with --list the pages go to a folder: --reports FOLDER";
	return (forms & ~(unsigned)JSON) != 0 ? "--list has a line for each pair: no other form but --json goes with it" : NULL;
}

/* audit or verify, of one pair or of a list of them. */
static enum status run_checks(bool verify, char **word, const struct options *options)
{
	const char *clash = find_clash(options->given);
	uint64_t owner;
	if (clash != NULL)
		return fail_usage(verify ? "verify" : "audit", clash, "", "");
	if (!is_digest(verify ? "verify" : "audit", options))
		return FAILED;
	if (options->owner != NULL && !take_number("verify", "--owner", options->owner, &owner))
		return FAILED;
	if ((options->given & LIST) != 0)
		return run_list(verify, options);
	return run_one(verify, word, options);
}

/* audit [--bytes | --ranges | --json] [--report FILE] [--text FILE] VENDOR SHIPPED, or a list */
enum status do_audit(char **word, const struct options *options)
{
	return run_checks(false, word, options);
}

/* verify [--owners LIST --owner N] [--json] [--report FILE] [--text FILE] VENDOR SHEET.. SHIPPED, or a list */
enum status do_verify(char **word, const struct options *options)
{
	return run_checks(true, word, options);
}
