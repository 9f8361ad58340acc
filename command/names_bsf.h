/* A BSF being read: its words, and what its lists and pages say of names. */
#ifndef COMMAND_NAMES_BSF_H
#define COMMAND_NAMES_BSF_H

#include "names_parts.h"

/* A word, a text in quotes (without them), a sign that stands alone, or the file's end. */
enum token_kind { AT_END, A_WORD, A_TEXT, A_SIGN };

struct token {
	enum token_kind kind;
	struct span span;
	size_t line;
};

/* A list of choices, which stand together in the store. */
struct list {
	struct span name;
	size_t first, count;
};

/* A name that stands in a block, whosesoever; the label where it is one of ours. */
struct standing {
	struct span name;
	size_t order, label;
};

/* A line of a page: the name it is about, its display name, its list. */
struct mention {
	struct span name, title, list;
	size_t order, line;
};

struct bsf {
	struct reading *r;
	struct list *list;
	size_t lists, list_room;
	struct standing *standing;
	size_t standings, standing_room;
	struct mention *mention;
	size_t mentions, mention_room;
};

struct token next_token(struct reading *r);
struct token peek_token(const struct reading *r);
bool is_token(const struct token *token, const char *word);
bool is_sign_token(const struct token *token, char sign);
void pass_line(struct reading *r, size_t line);
void take_page(struct bsf *b, size_t line);
void join_pages(struct bsf *b);

#endif
