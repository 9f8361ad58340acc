/*
 * What a check is known by afterwards: the line that was typed, by whom, where and when. It is all as the system
 * tells it, and proves nothing: it is for who asks the person that signed.
 */
#define _DEFAULT_SOURCE

#include "about.h"

#include <inttypes.h>
#include <pwd.h>
#include <stdlib.h>
#include <string.h>
#include <time.h>
#include <unistd.h>

/* The longest name of a machine that is shown. */
#define MOST_HOST 256

/* The words as they were typed; what takes the line apart moves them about in their own array. */
static char **kept;
static int kept_count;

/* The words, for later; without memory for them the line is told to be unknown. */
void keep_line(int count, char **word)
{
	kept = malloc(sizeof *kept * (size_t)(count + 1));
	if (kept == NULL)
		return;
	memcpy(kept, word, sizeof *kept * (size_t)count);
	kept_count = count;
}

/* A word as a shell takes it: in quotes where it has more than letters, digits and what is plain among them. */
static void put_word(FILE *to, const char *word)
{
	static const char plain[] = "ABCDEFGHIJKLMNOPQRSTUVWXYZabcdefghijklmnopqrstuvwxyz0123456789_-+=./,:@%";
	if (*word != 0 && word[strspn(word, plain)] == 0) {
		fputs(word, to);
		return;
	}
	fputc('\'', to);
	for (; *word != 0; word++)
		if (*word == '\'')
			fputs("'\\''", to);
		else
			fputc(*word, to);
	fputc('\'', to);
}

/* The whole line, as it could be typed again. */
void put_line(FILE *to)
{
	if (kept == NULL)
		fputs("unknown", to);
	for (int i = 0; i < kept_count; i++) {
		fputs(i == 0 ? "" : " ", to);
		put_word(to, kept[i]);
	}
}

/* The name of a user, by the system's own list of them; NULL where it has none. */
static const char *name_user(uid_t user, FILE *list)
{
	const struct passwd *entry;
	while ((entry = fgetpwent(list)) != NULL)
		if (entry->pw_uid == user)
			return entry->pw_name;
	return NULL;
}

/* Who runs it, by name where there is one, and by number. */
void put_user(FILE *to)
{
	const uid_t user = getuid();
	FILE *list = fopen("/etc/passwd", "re");
	const char *name = list == NULL ? NULL : name_user(user, list);
	if (name != NULL)
		fprintf(to, "%s ", name);
	fprintf(to, "(%ju)", (uintmax_t)user);
	if (list != NULL)
		fclose(list);
}

/* The machine. */
void put_host(FILE *to)
{
	char name[MOST_HOST + 1] = "";
	fputs(gethostname(name, MOST_HOST) == 0 && *name != 0 ? name : "unknown", to);
}

/* Now, in the time of all places. */
void put_time(FILE *to)
{
	char when[40] = "unknown";
	const time_t now = time(NULL);
	const struct tm *parts = gmtime(&now);
	if (parts != NULL)
		strftime(when, sizeof when, "%Y-%m-%d %H:%M:%S UTC", parts);
	fputs(when, to);
}

/* A name in the folder that the command runs in, for a file that is yet to be written; NULL where there is none. */
static char *path_here(const char *name)
{
	char *here = name[0] == '/' ? NULL : realpath(".", NULL);
	char *path = here == NULL ? NULL : malloc(strlen(here) + strlen(name) + 2);
	if (path != NULL)
		sprintf(path, "%s/%s", here, name);
	free(here);
	return path;
}

/* A file's name from the root on, in memory of its own; as it was given where that can't be had, NULL without memory. */
char *full_path(const char *name)
{
	char *full = realpath(name, NULL);
	if (full == NULL)
		full = path_here(name);
	return full != NULL ? full : strdup(name);
}
