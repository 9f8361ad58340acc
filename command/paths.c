/*
 * Names of files as one folder sees them from another: a record names the files that lie around it so that
 * it can be read from wherever it is called, and moved with them.
 */
#define _XOPEN_SOURCE 700

#include "paths.h"

#include <stdlib.h>
#include <string.h>

#include "files.h"
#include "signs.h"

/* What stands after the last slash. */
const char *last_name(const char *name)
{
	const char *slash = strrchr(name, '/');
	return slash == NULL ? name : slash + 1;
}

/* One name after the other, in memory of their own; NULL where there is none. */
char *with_ending(const char *name, const char *ending)
{
	char *whole = malloc(strlen(name) + strlen(ending) + 1);
	if (whole != NULL) {
		strcpy(whole, name);
		strcat(whole, ending);
	}
	return whole;
}

/* A file's own path from the root: of one that isn't there yet its folder's and its name. */
static char *whole_path(const char *name)
{
	char *path = realpath(name, NULL);
	if (path != NULL)
		return path;
	char *folder = name_beside(name, "."), *real = folder == NULL ? NULL : realpath(folder, NULL);
	char *with = real == NULL ? NULL : with_ending(real, strcmp(real, "/") == 0 ? "" : "/");
	path = with == NULL ? NULL : with_ending(with, last_name(name));
	free(with);
	free(real);
	free(folder);
	return path;
}

/* How many bytes of two paths are the same folders, up to a slash. */
static size_t count_shared(const char *one, const char *other)
{
	size_t shared = 0;
	for (size_t i = 0; one[i] != 0 && one[i] == other[i]; i++)
		if (one[i] == '/')
			shared = i + 1;
	return shared;
}

/* The second path from the first one's folder, both from the root. */
static char *path_between(const char *from, const char *to)
{
	const size_t shared = count_shared(from, to);
	size_t up = 0;
	for (const char *c = from + shared; *c != 0; c++)
		up += *c == '/';
	char *path = malloc(3 * up + strlen(to + shared) + 1), *at = path;
	if (path == NULL)
		return NULL;
	for (; up > 0; up--, at += 3)
		memcpy(at, "../", 3);
	strcpy(at, to + shared);
	return path;
}

/* A file's name as the folder of another file sees it; NULL where it can't be said. */
char *path_from(const char *beside, const char *name)
{
	char *from = whole_path(beside), *to = whole_path(name);
	char *path = from == NULL || to == NULL ? NULL : path_between(from, to);
	free(from);
	free(to);
	return path;
}

/* Such a name from here again. */
char *path_at(const char *beside, const char *name)
{
	return name[0] == '/' ? with_ending(name, "") : name_beside(beside, name);
}

/* Every byte of a name belongs to a sign, so that a document has it as it is. */
bool is_utf8(const char *name)
{
	uint32_t sign = 0;
	while (*name != 0) {
		const size_t length = take_sign(name, &sign);
		if (sign == NO_SIGN && length == 1)
			return false;
		name += length;
	}
	return true;
}
