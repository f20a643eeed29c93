#include <stdio.h>
#include <stdlib.h>
#include <string.h>

// A list of guests. Those who have left are struck off.
struct guest {
	struct guest *next;
	char *name;
	int left;
};

struct guest *first;

void arrive(char *name, int length)
{
	struct guest *g = malloc(sizeof(struct guest));
	g->name = malloc(length + 1);
	memcpy(g->name, name, length + 1);
	g->left = 0;
	g->next = first;
	first = g;
}

// The bug: the step of the loop reads the next guest from the one that was just freed.
void strike_off(void)
{
	struct guest *back = NULL;
	for (struct guest *g = first; g != NULL; g = g->next) {
		if (g->left) {
			if (back == NULL)
				first = g->next;
			else
				back->next = g->next;
			free(g->name);
			free(g);
		} else
			back = g;
	}
}

int main(void)
{
	arrive("Ada", 3);
	arrive("Bea", 3);
	arrive("Cal", 3);
	first->next->left = 1;
	strike_off();
	for (struct guest *g = first; g != NULL; g = g->next)
		printf("%s\n", g->name);
	return 0;
}
