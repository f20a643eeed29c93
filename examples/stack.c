#include <stdatomic.h>
#include <stdio.h>
#include <stdlib.h>
#include <threads.h>

// A stack that four threads push to and pop from without a mutex. Its nodes are objects of malloc that barriers move; what stands in the
// atomic number is an index into a table of pointers to them, and a count of the changes, so that a top that was there before isn't taken
// for the same one.

enum { THREADS = 4, NODES = 64, ROUNDS = 200, EMPTY = 0xffff, STEP = 0x10000 };

struct node {
	long value;
	atomic_uint below;
};

struct node *nodes[NODES];
atomic_uint top = EMPTY;
atomic_uint spare = EMPTY;
atomic_long pushed;
atomic_long popped;

// The index in a top, and the next top with another index.
unsigned index_of(unsigned t)
{
	return t & EMPTY;
}

unsigned after(unsigned t, unsigned index)
{
	return t - index_of(t) + STEP + index;
}

void push(atomic_uint *stack, unsigned index)
{
	unsigned seen = atomic_load(stack);
	do
		nodes[index]->below = index_of(seen);
	while (!atomic_compare_exchange_weak(stack, &seen, after(seen, index)));
}

// An index that was on the stack, or EMPTY.
unsigned pop(atomic_uint *stack)
{
	unsigned seen = atomic_load(stack);
	while (index_of(seen) != EMPTY)
		if (atomic_compare_exchange_strong(stack, &seen, after(seen, nodes[index_of(seen)]->below)))
			return index_of(seen);
	return EMPTY;
}

int work(void *argument)
{
	int *number = argument;
	for (int i = 0; i < ROUNDS; i++) {
		unsigned mine = pop(&spare);
		if (mine != EMPTY) {
			nodes[mine]->value = *number * ROUNDS + i;
			pushed += nodes[mine]->value;
			push(&top, mine);
		}
		unsigned taken = pop(&top);
		if (taken != EMPTY) {
			popped += nodes[taken]->value;
			push(&spare, taken);
		}
	}
	return 0;
}

int main(void)
{
	thrd_t threads[THREADS];
	int numbers[THREADS];
	for (unsigned i = 0; i < NODES; i++) {
		nodes[i] = malloc(sizeof(struct node));
		if (nodes[i] == NULL)
			return 1;
		push(&spare, i);
	}
	for (int i = 0; i < THREADS; i++) {
		numbers[i] = i;
		if (thrd_create(&threads[i], work, &numbers[i]) != thrd_success)
			return 1;
	}
	for (int i = 0; i < THREADS; i++)
		thrd_join(threads[i], NULL);
	long left = 0;
	int count = 0;
	for (unsigned index = pop(&top); index != EMPTY; index = pop(&top)) {
		left += nodes[index]->value;
		push(&spare, index);
		count++;
	}
	int there = 0;
	while (pop(&spare) != EMPTY)
		there++;
	printf("pushed %ld, popped %ld and %ld\n", pushed, popped, left);
	printf("%d nodes, %d left\n", there, count);
	for (int i = 0; i < NODES; i++)
		free(nodes[i]);
	return 0;
}
