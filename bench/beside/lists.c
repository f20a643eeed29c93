#include <stdio.h>
#include <stdlib.h>

#define COUNT 10000
#define ROUNDS 50

struct node {
	struct node *next;
	long value;
};

struct node *first;

// The list the other way round.
void reverse(void)
{
	struct node *done = NULL;
	for (struct node *x = first; x != NULL; ) {
		struct node *rest = x->next;
		x->next = done;
		done = x;
		x = rest;
	}
	first = done;
}

// What the list adds up to.
long total(void)
{
	long sum = 0;
	for (struct node *x = first; x != NULL; x = x->next)
		sum += x->value;
	return sum;
}

// A linked list that is built, walked and turned round, over and over, and given up.
int main(void)
{
	for (int i = 0; i < COUNT; i++) {
		struct node *x = malloc(sizeof(struct node));
		x->value = i;
		x->next = first;
		first = x;
	}
	long sum = 0;
	for (int k = 0; k < ROUNDS; k++) {
		reverse();
		sum += total() + first->value;
	}
	while (first != NULL) {
		struct node *rest = first->next;
		free(first);
		first = rest;
	}
	printf("%ld\n", sum);
	return 0;
}
