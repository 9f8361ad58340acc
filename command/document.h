/* A JSON document taken apart: texts, whole numbers, lists and objects, each with its own stretch of the text. */
#ifndef COMMAND_DOCUMENT_H
#define COMMAND_DOCUMENT_H

#include <stdbool.h>

#include "command.h"

enum piece_kind { A_TEXT, A_NUMBER, A_LIST, AN_OBJECT, A_WORD };

/* A part of a document, and those inside it one after the other. */
struct piece {
	enum piece_kind kind;
	char *name;     /* in an object; NULL elsewhere */
	char *text;     /* of a text, as UTF-8; of a word (true, false, null) that word */
	uint64_t number;
	const char *from, *to; /* the stretch of the document */
	struct piece *first, *next;
};

struct piece *take_document(const char *text, size_t length);
const struct piece *member_of(const struct piece *object, const char *name, enum piece_kind kind);
void free_document(struct piece *part);

#endif
