/* The maker of the cases: the parts named, in their order, into a stream of records and the answers to it. */
#include "cases.h"

#include <inttypes.h>
#include <string.h>

/* The parts, and the numbers their call can give besides the image's refusals. */
static const struct {
	const char *name;
	void (*write)(void);
	enum call call;
	uint64_t more[8];
} part[] = {
	{ "read", read_part, CALL_READ, { 0 } },
	{ "release", release_part, CALL_RELEASE, { 0, 15, 16, 17, 18, 23, 24, 28 } },
	{ "setting", setting_part, CALL_SETTING, { 0, 17, 28 } },
	{ "audit", audit_part, CALL_AUDIT, { 0, 18, 19, 20 } },
	{ "mend", mend_part, CALL_MEND, { 0, 18, 19, 20, 28 } },
};

/* A part is among the names. */
static bool asked(size_t i, int names, char **name)
{
	for (int k = 0; k < names; k++)
		if (strcmp(name[k], part[i].name) == 0)
			return true;
	return false;
}

/* Every name is that of a part. */
static bool all_known(int names, char **name)
{
	for (int k = 0; k < names; k++) {
		bool found = false;
		for (size_t i = 0; i < COUNT(part); i++)
			found = found || strcmp(name[k], part[i].name) == 0;
		if (!found)
			return false;
	}
	return true;
}

/* Every possible number at least three times. */
static bool enough_numbers(size_t i)
{
	const uint64_t *count = given[part[i].call];
	bool enough = true;
	for (size_t k = 0; k < RULES; k++)
		enough = enough && count[rule[k]] >= 3;
	for (size_t k = 0; k < COUNT(part[i].more); k++)
		enough = enough && count[part[i].more[k]] >= 3;
	return enough;
}

/* A call's cases and those of each number; at least 300 in all. */
static bool report(size_t i)
{
	const uint64_t *count = given[part[i].call];
	uint64_t all = 0;
	for (unsigned number = 0; number < NUMBERS; number++)
		all += count[number];
	fprintf(stderr, "%s %" PRIu64 ":", part[i].name, all);
	for (unsigned number = 0; number < NUMBERS; number++)
		if (count[number] != 0)
			fprintf(stderr, " %u=%" PRIu64, number, count[number]);
	fprintf(stderr, "\n");
	return all >= 300 && enough_numbers(i);
}

/* "The audit": accepted ones, explained and not, at least three times each. */
static bool report_explained(void)
{
	const uint64_t not = given[CALL_AUDIT][0] - explained;
	fprintf(stderr, "audit accepted: explained %" PRIu64 ", not %" PRIu64 "\n", explained, not);
	return explained >= 3 && not >= 3;
}

/* The parts asked for; 1 where a call has too few cases. */
static int summary(int names, char **name)
{
	bool enough = true;
	for (size_t i = 0; i < COUNT(part); i++) {
		if (!asked(i, names, name))
			continue;
		enough = report(i) && enough;
		if (part[i].call == CALL_AUDIT)
			enough = report_explained() && enough;
	}
	fprintf(stderr, "cases %" PRIu64 "\n", cases);
	return enough ? 0 : 1;
}

/* The parts asked for, always in the order of the table. */
int main(int argc, char **argv)
{
	const int names = argc - 3;
	if (names < 1 || !all_known(names, argv + 1)) {
		fprintf(stderr, "usage: cases PART... RECORDS ANSWERS (read release setting audit mend)\n");
		return 2;
	}
	FILE *records = fopen(argv[argc - 2], "wb");
	answers = fopen(argv[argc - 1], "wb");
	if (records == NULL || answers == NULL)
		fail("a file cannot be opened");
	open_stream(records);
	for (size_t i = 0; i < COUNT(part); i++)
		if (asked(i, names, argv + 1))
			part[i].write();
	if (fclose(records) != 0 || fclose(answers) != 0)
		fail("a file cannot be written");
	return summary(names, argv + 1);
}
