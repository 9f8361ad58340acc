/* Files read whole, and told apart. */
#define _DEFAULT_SOURCE
#define _XOPEN_SOURCE 700

#include "files.h"

#include <errno.h>
#include <fcntl.h>
#include <stdlib.h>
#include <string.h>
#include <sys/mman.h>
#include <sys/stat.h>
#include <unistd.h>

#include "inputs.h"
#include "messages.h"
#include "pajurenda.h"

/* One byte more than the longest image: any longer input has the same answer. */
#define MOST_READ ((size_t)PAJURENDA_MOST_IMAGE + 1)

/* How large a large page is. */
#define LARGE_PAGE ((size_t)2097152)

/* The longest file of several images. */
#define MOST_WHOLE ((size_t)1 << 28)

/* The room that is asked for first: a file's own length and a byte more, which shows its end; else 64 KiB. */
static size_t first_room(int from, size_t most)
{
	struct stat about;
	if (fstat(from, &about) != 0 || !S_ISREG(about.st_mode) || about.st_size < 65536)
		return 65536;
	return (uintmax_t)about.st_size >= most ? most : (size_t)about.st_size + 1;
}

/* Memory for a file; of a large one in large pages where the system has them, as filling it is most of the work. */
static uint8_t *take_memory(size_t room)
{
	const size_t rounded = (room + LARGE_PAGE - 1) / LARGE_PAGE * LARGE_PAGE;
	if (room < LARGE_PAGE)
		return malloc(room);
	uint8_t *at = aligned_alloc(LARGE_PAGE, rounded);
	if (at != NULL)
		(void)madvise(at, rounded, MADV_HUGEPAGE);
	return at;
}

/* The first room, or twice what there is, at most this; false where there is no memory. */
static bool grow(struct bytes *file, size_t *room, size_t first, size_t most)
{
	const size_t more = *room == 0 ? first : *room > most / 2 ? most : *room * 2;
	uint8_t *at = *room == 0 ? take_memory(more) : realloc(file->at, more);
	if (at == NULL)
		return false;
	file->at = at;
	*room = more;
	return true;
}

/* All bytes up to the most, or until a full room of them is enough, and whether that is the whole file; 0 or the
   error's number. */
static int read_all(int from, struct bytes *file, size_t most, bool (*enough)(const struct bytes *file), bool *whole)
{
	size_t room = 0;
	const size_t first = enough == NULL ? first_room(from, most) : 65536;
	while (file->length < most) {
		if (file->length == room && room != 0 && enough != NULL && enough(file))
			break;
		if (file->length == room && !grow(file, &room, first, most))
			return ENOMEM;
		const ssize_t got = read(from, file->at + file->length, room - file->length);
		*whole = got == 0;
		if (got == 0)
			break;
		if (got < 0 && errno != EINTR)
			return errno;
		file->length += got > 0 ? (size_t)got : 0;
	}
	return 0;
}

/* `-` is standard input. */
static bool is_standard(const char *name)
{
	return strcmp(name, "-") == 0;
}

/* It can be read once: 0, or the reason why it is given no more. */
static int take_standard(void)
{
	static bool taken;
	const int reason = taken ? TAKEN_BEFORE : 0;
	taken = true;
	return reason;
}

/* A file in memory, as much of it as is wanted; 0 or the error's number. */
static int load_file(const char *name, struct bytes *file, size_t most,
		     bool (*enough)(const struct bytes *file))
{
	*file = (struct bytes){ .at = NULL };
	int reason = is_standard(name) ? take_standard() : 0;
	if (reason != 0)
		return reason;
	const int from = is_standard(name) ? dup(STDIN_FILENO) : open(name, O_RDONLY | O_CLOEXEC | O_NOCTTY);
	if (from < 0)
		return errno;
	bool whole = false;
	reason = read_all(from, file, most, enough, &whole);
	close(from);
	if (reason == 0)
		note_input(name, file, whole);
	if (reason != 0) {
		free(file->at);
		file->at = NULL;
	}
	return reason;
}

/* The same; false after a message. */
bool load_until(const char *name, struct bytes *file, size_t most,
		bool (*enough)(const struct bytes *file))
{
	const int reason = load_file(name, file, most, enough);
	if (reason != 0)
		fail_at(name, reason);
	return reason == 0;
}

/* A file of several images, whole; false after a message. */
bool load_whole(const char *name, struct bytes *file)
{
	if (!load_until(name, file, MOST_WHOLE + 1, NULL))
		return false;
	if (file->length <= MOST_WHOLE)
		return true;
	free(file->at);
	file->at = NULL;
	fail_at(name, EFBIG);
	return false;
}

/* A file that may be there or not; false, without a word, where it can't be had. */
bool load_quietly(const char *name, struct bytes *file)
{
	return load_file(name, file, MOST_READ, NULL) == 0;
}

/* An image or a sheet, whole or too long. */
bool load(const char *name, struct bytes *file)
{
	return load_until(name, file, MOST_READ, NULL);
}

/* The same bytes in memory of their own; false where there is none. */
bool copy_bytes(const struct bytes *from, struct bytes *to)
{
	*to = (struct bytes){ .at = take_memory(from->length + 1), .length = from->length };
	if (to->at == NULL)
		return false;
	memcpy(to->at, from->at, from->length);
	return true;
}

/* ---- told apart ---- */

/* What a file is; of `-` what standard input comes from. */
static bool look_at(const char *name, struct stat *about)
{
	return (is_standard(name) ? fstat(STDIN_FILENO, about) : stat(name, about)) == 0;
}

/* Both names are those of one file, under whatever name: writing the one would lose the other. */
bool is_same_file(const char *one, const char *other)
{
	struct stat first, second;
	return look_at(one, &first) && look_at(other, &second) &&
	       first.st_dev == second.st_dev && first.st_ino == second.st_ino;
}
