/*
 * The files and sections of an image that the library has refused with 25 to 27. Nothing here judges it:
 * the walk goes on as long as the next header can be found, so that a refusal can say where it is.
 */
#include "modules.h"

#include <stdlib.h>

#define FILE_HEADER 24
#define SECTION_HEADER 4

/* Types of files without sections, and of sections with a module. */
enum { RAW_FILE = 0x01, PAD_FILE = 0xF0, PE32_SECTION = 0x10, TE_SECTION = 0x12 };

/* A file header's bytes added up modulo 256, the two that don't count taken as 0. */
unsigned sum_of_file(const struct bytes *image, uint64_t file)
{
	unsigned sum = 0;
	for (uint64_t i = 0; i < FILE_HEADER; i++)
		sum += i == 17 || i == 23 ? 0 : (unsigned)number_at(image, file + i, 1);
	return sum & 0xFF;
}

/* One more section with a module; false where there is no memory. */
static bool hold(struct files *files)
{
	if (files->modules == files->room) {
		const size_t room = 2 * files->room + 64;
		struct held *held = realloc(files->held, room * sizeof *held);
		if (held == NULL)
			return false;
		files->held = held;
		files->room = room;
	}
	files->held[files->modules++] = (struct held){ files->file, files->section };
	return true;
}

/* The section at hand can be passed, as it lies in its file; what it holds is noted. */
static bool pass_section(struct files *files, uint64_t *size)
{
	const uint64_t left = files->file_end - files->section;
	*size = number_at(files->image, files->section, 3);
	if (left < SECTION_HEADER || *size < SECTION_HEADER || *size > left) {
		files->stop = AT_SECTION;
		return false;
	}
	const uint64_t type = number_at(files->image, files->section + 3, 1);
	if ((type == PE32_SECTION || type == TE_SECTION) && !hold(files)) {
		files->stop = NO_MEMORY;
		return false;
	}
	return true;
}

/* The sections of the file at hand, each at the next multiple of 4. */
static bool pass_sections(struct files *files)
{
	uint64_t size = 0;
	files->section = files->file + FILE_HEADER;
	for (; files->section < files->file_end; files->section = (files->section + size + 3) / 4 * 4)
		if (!pass_section(files, &size))
			return false;
	return true;
}

/* The file at hand can be passed; raw and pad files are, with whatever is in them. */
static bool pass_file(struct files *files)
{
	const uint64_t left = files->end - files->file;
	const uint64_t size = number_at(files->image, files->file + 20, 3);
	const uint64_t type = number_at(files->image, files->file + 18, 1);
	if (left < FILE_HEADER || size < FILE_HEADER || size > left ||
	    number_at(files->image, files->file + 19, 1) % 2 == 1 ||
	    sum_of_file(files->image, files->file) != 0) {
		files->stop = AT_FILE;
		return false;
	}
	files->file_end = files->file + size;
	return type == RAW_FILE || type == PAD_FILE || pass_sections(files);
}

/* From here on there is nothing but FF. */
static bool is_free(const struct files *files)
{
	uint64_t at = files->file;
	while (at < files->end && files->image->at[at] == 0xFF)
		at++;
	return at == files->end;
}

/* All files from the header file on, each at the next multiple of 8; the list is the caller's to free. */
struct files follow_files(const struct letters *w)
{
	struct files files = { .image = w->image, .file = w->f };
	files.end = w->V < w->image->length ? w->V : w->image->length;
	for (; files.file < files.end && !is_free(&files); files.count++) {
		if (!pass_file(&files))
			return files;
		files.file = (files.file_end + 7) / 8 * 8;
	}
	return files;
}
