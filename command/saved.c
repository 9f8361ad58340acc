/*
 * Files written whole or not at all, one or several together, and never over another unless --replace lets
 * them: each is made beside its place under a name of its own, and gets its name when all are on the disk.
 */
#define _XOPEN_SOURCE 700

#include "clock.h"
#include "files.h"

#include <errno.h>
#include <fcntl.h>
#include <signal.h>
#include <stdio.h>
#include <stdlib.h>
#include <string.h>
#include <sys/stat.h>
#include <unistd.h>

#include "messages.h"
#include "standing.h"

/* A file on its way: where it really goes, its mode, the name it is made under, and the name that what
   stood there is kept under until all are in place; NULL where there is none. */
struct saving {
	const struct bytes *bytes;
	char *name, *temporary, *kept;
	mode_t mode;
	bool stood;
};

/* Files that are there may be replaced. */
static bool replacing;

/* From here on they may, or may not. */
void let_replace(bool files)
{
	replacing = files;
}

/* Nothing stands where a file is to be written, or it may be replaced; false after a message. What can't be
   written at all is told when it is tried. */
bool is_free(const char *out)
{
	struct stat about;
	if (out != NULL && strcmp(out, "-") == 0) {
		fputs("pajurenda: -: standard output is no file to write; a file of that name is ./-\n", stderr);
		return false;
	}
	if (out == NULL || replacing || stat(out, &about) != 0 || !S_ISREG(about.st_mode))
		return true;
	tell_standing(out);
	return false;
}

/* ---- where it goes ---- */

/* The mode of a new file. */
static mode_t new_mode(void)
{
	const mode_t mask = umask(0);
	umask(mask);
	return 0666 & ~mask;
}

/* Through a link, and never onto anything but a file that may be written; 0 or the error's number. */
static int find_target(const char *name, struct saving *saving)
{
	struct stat about;
	saving->mode = new_mode();
	saving->stood = lstat(name, &about) == 0;
	if (!saving->stood && errno != ENOENT)
		return errno;
	if (!saving->stood) {
		saving->name = strdup(name);
		return saving->name == NULL ? ENOMEM : 0;
	}
	if (stat(name, &about) != 0)
		return errno;
	if (!S_ISREG(about.st_mode))
		return S_ISDIR(about.st_mode) ? EISDIR : NOT_REGULAR;
	if (!replacing)
		return EEXIST;
	if (access(name, W_OK) != 0)
		return errno;
	saving->mode = about.st_mode & 0777;
	saving->name = realpath(name, NULL);
	return saving->name == NULL ? errno : 0;
}

/* Another name in the target's folder; NULL where there is no memory. */
char *name_beside(const char *target, const char *other)
{
	const char *slash = strrchr(target, '/');
	const size_t folder = slash == NULL ? 0 : (size_t)(slash - target) + 1;
	const size_t length = strlen(other) + 1;
	char *name = malloc(folder + length);
	if (name != NULL) {
		memcpy(name, target, folder);
		memcpy(name + folder, other, length);
	}
	return name;
}

/* ---- made beside its place ---- */

/* Every byte into an open file and onto the disk; 0 or the error's number. */
static int fill(int to, const struct bytes *file, mode_t mode)
{
	for (size_t done = 0; done < file->length;) {
		const ssize_t put = write(to, file->at + done, file->length - done);
		if (put == 0)
			return ENOSPC;
		if (put < 0 && errno != EINTR)
			return errno;
		done += put > 0 ? (size_t)put : 0;
	}
	return fchmod(to, mode) != 0 || fsync(to) != 0 ? errno : 0;
}

/* A file under a name of its own; 0 or the error's number. */
static int make_beside(struct saving *saving)
{
	char *temporary = name_beside(saving->name, ".pajurenda.XXXXXX");
	const int to = temporary == NULL ? -1 : mkstemp(temporary);
	if (to < 0) {
		const int reason = temporary == NULL ? ENOMEM : errno;
		free(temporary);
		return reason;
	}
	saving->temporary = temporary;
	int reason = fill(to, saving->bytes, saving->mode);
	if (close(to) != 0 && reason == 0)
		reason = errno;
	return reason;
}

/* ---- put in its place ---- */

/* What stands there gets a second name, so that it can come back; without one where the disk has none. */
static void keep_old(struct saving *saving)
{
	if (!saving->stood)
		return;
	saving->kept = malloc(strlen(saving->temporary) + 2);
	if (saving->kept == NULL)
		return;
	strcpy(saving->kept, saving->temporary);
	strcat(saving->kept, "~");
	if (link(saving->name, saving->kept) != 0) {
		free(saving->kept);
		saving->kept = NULL;
	}
}

/* Its name for a file that is made; a new one takes no other's, even where that came meanwhile. */
static int put_in_place(const struct saving *saving)
{
	struct stat about;
	if (saving->stood)
		return rename(saving->temporary, saving->name) != 0 ? errno : 0;
	if (link(saving->temporary, saving->name) == 0) {
		(void)unlink(saving->temporary);
		return 0;
	}
	if (errno != EPERM && errno != EOPNOTSUPP && errno != EMLINK)
		return errno;
	if (lstat(saving->name, &about) == 0)
		return EEXIST;
	return rename(saving->temporary, saving->name) != 0 ? errno : 0;
}

/* A file that is in its place goes again, for what stood there. */
static void take_back(const struct saving *saving)
{
	if (saving->kept != NULL)
		(void)rename(saving->kept, saving->name);
	else if (!saving->stood)
		(void)unlink(saving->name);
}

/* The new name onto the disk, where the folder lets us: old or new, the file there is whole. */
static void sync_folder(const char *target)
{
	char *folder = name_beside(target, ".");
	const int opened = folder == NULL ? -1 : open(folder, O_RDONLY | O_DIRECTORY | O_CLOEXEC);
	if (opened >= 0) {
		(void)fsync(opened);
		close(opened);
	}
	free(folder);
}

/* ---- one or several ---- */

/* All of them made, then all put in their places in this order, or none; which failed is in at. */
static int place_all(struct saving *saving, size_t count, size_t *at)
{
	int reason = 0;
	for (*at = 0; *at < count; ++*at)
		if ((reason = make_beside(&saving[*at])) != 0)
			return reason;
	for (*at = 0; *at < count; ++*at) {
		keep_old(&saving[*at]);
		if ((reason = put_in_place(&saving[*at])) != 0)
			break;
		sync_folder(saving[*at].name);
	}
	for (size_t i = reason == 0 ? 0 : *at; i > 0; i--)
		take_back(&saving[i - 1]);
	return reason;
}

/* The same with no signal let in that could leave one without the other, or a file under another name. */
static int place_undisturbed(struct saving *saving, size_t count, size_t *at)
{
	sigset_t all, before;
	sigfillset(&all);
	sigprocmask(SIG_BLOCK, &all, &before);
	const int reason = place_all(saving, count, at);
	for (size_t i = 0; i < count; i++) {
		if (saving[i].temporary != NULL)
			(void)unlink(saving[i].temporary);
		if (saving[i].kept != NULL)
			(void)unlink(saving[i].kept);
	}
	sigprocmask(SIG_SETMASK, &before, NULL);
	return reason;
}

/* Why a file isn't written. */
static void tell_unsaved(const char *name, int reason)
{
	if (reason == EEXIST)
		tell_standing(name);
	else
		fail_at(name, reason);
}

/* Those that have a name, made and put in place; 0 or the error's number, with the name it is of. */
static int save_named(const struct output *outputs, size_t count, struct saving *saving, const char **of)
{
	const char *names[MOST_OUTPUTS];
	size_t wanted = 0, at = 0;
	for (size_t i = 0; i < count; i++) {
		if (outputs[i].name == NULL)
			continue;
		*of = names[wanted] = outputs[i].name;
		saving[wanted].bytes = &outputs[i].bytes;
		const int reason = find_target(outputs[i].name, &saving[wanted++]);
		if (reason != 0)
			return reason;
	}
	const int reason = place_undisturbed(saving, wanted, &at);
	*of = reason == 0 ? NULL : names[at];
	return reason;
}

/* The files written whole, all of them or none; false after a message. */
bool save_together(const struct output *outputs, size_t count)
{
	struct saving saving[MOST_OUTPUTS] = { { .bytes = NULL } };
	const char *of = NULL;
	stop_clock();
	const int reason = save_named(outputs, count, saving, &of);
	for (size_t i = 0; i < count; i++) {
		free(saving[i].name);
		free(saving[i].temporary);
		free(saving[i].kept);
	}
	if (reason != 0)
		tell_unsaved(of, reason);
	return reason == 0;
}

/* The file written whole or not at all; false after a message. */
bool save(const char *name, const struct bytes *file)
{
	const struct output output = { .name = name, .bytes = *file };
	return save_together(&output, 1);
}
