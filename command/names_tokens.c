/* The words of a BSF. Blanks and line ends separate them; comments are as in C, and don't nest. */
#include <string.h>

#include "names_bsf.h"

/* A sign further, with the lines counted. */
static void step(struct reading *r)
{
	if (*r->at++ == '\n')
		r->line++;
}

/* These two signs stand here. */
static bool stand(const struct reading *r, const char *two)
{
	return r->end - r->at >= 2 && memcmp(r->at, two, 2) == 0;
}

/* Up to the line's end. */
static void pass_rest(struct reading *r)
{
	while (r->at < r->end && *r->at != '\n')
		r->at++;
}

/* A comment that the file ends in is a file that isn't whole. */
static void pass_comment(struct reading *r)
{
	const size_t line = r->line;
	r->at += 2;
	while (r->at < r->end && !stand(r, "*/"))
		step(r);
	if (r->at == r->end)
		refuse(r, NAMES_BROKEN, line, "a comment has no end");
	else
		r->at += 2;
}

/* To the next sign that counts. */
static void pass_blanks(struct reading *r)
{
	while (r->at < r->end) {
		if (stand(r, "/*"))
			pass_comment(r);
		else if (stand(r, "//"))
			pass_rest(r);
		else if ((unsigned char)*r->at <= ' ')
			step(r);
		else
			break;
	}
}

/* A text in quotes; where the line ends before it does, no text. */
static struct token take_quoted(struct reading *r)
{
	const char quote = *r->at, *start = r->at + 1;
	struct token token = { .kind = A_TEXT, .line = r->line };
	r->at = start;
	while (r->at < r->end && *r->at != quote && *r->at != '\n')
		r->at++;
	token.span = (struct span){ start, (size_t)(r->at - start) };
	if (r->at == r->end || *r->at == '\n')
		token.kind = A_SIGN;
	else
		r->at++;
	return token;
}

/* The next of a file. */
struct token next_token(struct reading *r)
{
	static const char alone[] = ",={}\"'";
	pass_blanks(r);
	struct token token = { .kind = AT_END, .span = { r->at, 0 }, .line = r->line };
	if (r->at == r->end || r->refused)
		return token;
	if (*r->at == '"' || *r->at == '\'')
		return take_quoted(r);
	const char *start = r->at++;
	token.kind = strchr(alone, *start) != NULL ? A_SIGN : A_WORD;
	while (token.kind == A_WORD && r->at < r->end && (unsigned char)*r->at > ' ' &&
	       strchr(alone, *r->at) == NULL && !stand(r, "/*") && !stand(r, "//"))
		r->at++;
	token.span.length = (size_t)(r->at - start);
	return token;
}

/* The next, which stays. */
struct token peek_token(const struct reading *r)
{
	struct names_problem why;
	struct reading ahead = *r;
	ahead.why = &why;
	return next_token(&ahead);
}

/* It is that word. */
bool is_token(const struct token *token, const char *word)
{
	return token->kind == A_WORD && span_is(token->span, word);
}

/* It is that sign, alone. */
bool is_sign_token(const struct token *token, char sign)
{
	return token->kind == A_SIGN && token->span.length == 1 && token->span.at[0] == sign;
}

/* What is left of a line that says nothing here. */
void pass_line(struct reading *r, size_t line)
{
	while (!r->refused && r->line == line) {
		const struct token token = peek_token(r);
		if (token.kind == AT_END || token.line != line)
			break;
		(void)next_token(r);
	}
	pass_over(r, line);
}
