#include <stdio.h>
#include <stdlib.h>
#include <string.h>

// Counts the words of a text, each in an object of its own.
struct word {
	struct word *next;
	char *text;
	unsigned long length;
	int count;
};

struct word *first;

int same(char *a, char *b, unsigned long n)
{
	for (unsigned long i = 0; i < n; i++)
		if (a[i] != b[i])
			return 0;
	return 1;
}

void count(char *from, unsigned long n)
{
	for (struct word *w = first; w != NULL; w = w->next)
		if (w->length == n && same(w->text, from, n)) {
			w->count++;
			return;
		}
	struct word *w = malloc(sizeof(struct word));
	w->text = malloc(n + 1);
	memcpy(w->text, from, n);
	w->text[n] = 0;
	w->length = n;
	w->count = 1;
	w->next = first;
	first = w;
}

int main(void)
{
	char *text = "the object that moves is still the object that it was";
	unsigned long from = 0;
	for (unsigned long i = 0; ; i++)
		if (text[i] == ' ' || text[i] == 0) {
			if (i > from)
				count(text + from, i - from);
			from = i + 1;
			if (text[i] == 0)
				break;
		}
	for (struct word *w = first; w != NULL; w = w->next)
		printf("%s %d\n", w->text, w->count);
	return 0;
}
