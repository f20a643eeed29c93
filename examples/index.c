/*
 * index.c - in which lines of a text each of its words stands.
 *
 * The words are in a tree, by the alphabet; each has a list of its lines, once each. A query finds a list of its own: `moves` asks for a word,
 * `the hole` for both words in a line, and `mov*` for any word that begins so.
 */
#include <stdio.h>
#include <stdlib.h>

typedef struct posting {
	struct posting *next;
	int line;
} Posting;

typedef struct {
	Posting *first, *last;
} Lines;

typedef struct word {
	struct word *before, *behind;
	Lines lines;
	char *letters;
} Word;

static Word *root;
static int words, out_of_memory;

static void *take(size_t size)
{
	void *p = malloc(size);
	if (p == NULL)
		out_of_memory = 1;
	return p;
}

static char lower(char c)
{
	return c >= 'A' && c <= 'Z' ? c - 'A' + 'a' : c;
}

static int is_letter(char c)
{
	return (c >= 'a' && c <= 'z') || (c >= 'A' && c <= 'Z');
}

/* Less than 0, 0 or more, as the one stands before the other, is it, or stands behind. */
static int compare(const char *a, const char *b)
{
	for (; *a != '\0' && *a == *b; a++)
		b++;
	return *a - *b;
}

static int begins(const char *s, const char *with)
{
	for (; *with != '\0' && *s == *with; with++)
		s++;
	return *with == '\0';
}

/* ---- lists of lines */

static void lines_init(Lines *lines)
{
	lines->first = NULL;
	lines->last = NULL;
}

/* Appends a line, which is none of those before the last one. */
static void lines_add(Lines *lines, int line)
{
	Posting *p;
	if (lines->last != NULL && lines->last->line == line)
		return;
	p = take(sizeof(Posting));
	if (p == NULL)
		return;
	p->line = line;
	p->next = NULL;
	if (lines->last != NULL)
		lines->last->next = p;
	else
		lines->first = p;
	lines->last = p;
}

static void lines_free(Lines *lines)
{
	while (lines->first != NULL) {
		Posting *p = lines->first;
		lines->first = p->next;
		free(p);
	}
	lines->last = NULL;
}

/* Those of a that are in b, where both is set, or else those of either, in place of a. */
static void lines_merge(Lines *a, const Lines *b, int both)
{
	Lines merged;
	const Posting *p = a->first, *q = b->first;
	lines_init(&merged);
	while (p != NULL && q != NULL) {
		int line = p->line < q->line ? p->line : q->line;
		if (!both || p->line == q->line)
			lines_add(&merged, line);
		if (p->line == line)
			p = p->next;
		if (q->line == line)
			q = q->next;
	}
	for (; !both && p != NULL; p = p->next)
		lines_add(&merged, p->line);
	for (; !both && q != NULL; q = q->next)
		lines_add(&merged, q->line);
	lines_free(a);
	*a = merged;
}

static void lines_print(const Lines *lines)
{
	for (const Posting *p = lines->first; p != NULL; p = p->next)
		printf(" %d", p->line);
	printf("\n");
}

/* ---- the index */

/* The letters as small ones, in an object of their own. */
static char *copy_lower(const char *from, size_t n)
{
	char *letters = take(n + 1);
	if (letters == NULL)
		return NULL;
	for (size_t i = 0; i < n; i++)
		letters[i] = lower(from[i]);
	letters[n] = '\0';
	return letters;
}

/* Where the word hangs in the tree, or where it would be hung up. */
static Word **place_of(const char *letters)
{
	Word **place = &root;
	while (*place != NULL) {
		int order = compare(letters, (*place)->letters);
		if (order == 0)
			break;
		if (order < 0)
			place = &(*place)->before;
		else
			place = &(*place)->behind;
	}
	return place;
}

/* A word that hangs nowhere yet. The letters are its own, or freed where there is no room for it. */
static Word *make_word(char *letters)
{
	Word *w = take(sizeof(Word));
	if (w == NULL) {
		free(letters);
		return NULL;
	}
	w->before = NULL;
	w->behind = NULL;
	w->letters = letters;
	lines_init(&w->lines);
	words++;
	return w;
}

static void add(const char *from, size_t n, int line)
{
	char *letters = copy_lower(from, n);
	Word **place;
	if (letters == NULL)
		return;
	place = place_of(letters);
	if (*place == NULL)
		*place = make_word(letters);
	else
		free(letters);
	if (*place != NULL)
		lines_add(&(*place)->lines, line);
}

/* Adds the words of a text, and tells how many lines it has. */
static int add_text(const char *text)
{
	const char *from = NULL;
	int line = 1;
	for (;; text++) {
		if (is_letter(*text)) {
			if (from == NULL)
				from = text;
			continue;
		}
		if (from != NULL)
			add(from, text - from, line);
		from = NULL;
		if (*text == '\0')
			return line - 1;
		if (*text == '\n')
			line++;
	}
}

static void print_words(const Word *w)
{
	if (w == NULL)
		return;
	print_words(w->before);
	printf("%s:", w->letters);
	lines_print(&w->lines);
	print_words(w->behind);
}

static void free_words(Word *w)
{
	if (w == NULL)
		return;
	free_words(w->before);
	free_words(w->behind);
	lines_free(&w->lines);
	free(w->letters);
	free(w);
}

/* ---- queries */

static void find_beginning(const Word *w, const char *with, Lines *found)
{
	if (w == NULL)
		return;
	find_beginning(w->before, with, found);
	if (begins(w->letters, with))
		lines_merge(found, &w->lines, 0);
	find_beginning(w->behind, with, found);
}

/* The lines in which each part of the query is found. */
static void find(const char *query, Lines *found)
{
	lines_init(found);
	for (int parts = 0; *query != '\0'; parts++) {
		const char *from = query;
		const Word *w;
		char *letters;
		Lines part;
		while (is_letter(*query))
			query++;
		letters = copy_lower(from, query - from);
		if (letters == NULL)
			return;
		lines_init(&part);
		w = *place_of(letters);
		if (*query == '*')
			find_beginning(root, letters, &part);
		else if (w != NULL)
			lines_merge(&part, &w->lines, 0);
		lines_merge(found, &part, parts > 0);
		lines_free(&part);
		free(letters);
		while (*query != '\0' && !is_letter(*query))
			query++;
	}
}

static void ask(const char *query)
{
	Lines found;
	find(query, &found);
	printf("? %s:", query);
	if (found.first == NULL)
		printf(" nowhere");
	lines_print(&found);
	lines_free(&found);
}

int main(void)
{
	int lines = add_text("A handle is a word that stands for an object.\n"
			     "The object may move; the handle stays.\n"
			     "Where objects were freed, holes are left;\n"
			     "so the objects move down, and no hole is left.\n");
	printf("%d words in %d lines\n", words, lines);
	print_words(root);
	ask("handle");
	ask("the object");
	ask("Obj* move");
	ask("hole word");
	free_words(root);
	return out_of_memory;
}
