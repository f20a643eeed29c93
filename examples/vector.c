#include <stdio.h>
#include <stdlib.h>
#include <string.h>
#include <threads.h>

// A list of guests that grows by realloc, and shrinks again, while three readers hold pointers into tables of their own.
// The list is another object each time that it grows, and barriers move it, too; the table that a reader is at stays.

enum { READERS = 3, ROUNDS = 8, WIDE = 24, GUESTS = 100 };

struct guest {
	int number;
	char *name;
};

struct list {
	struct guest *guests;
	size_t count;
	size_t room;
};

struct reader {
	long *table;
	long sum;
};

// Room for so many guests, which keeps those that are there; where there is none the list is as it was.
int reserve(struct list *l, size_t room)
{
	struct guest *guests = realloc(l->guests, room * sizeof(struct guest));
	if (guests == NULL)
		return 0;
	l->guests = guests;
	l->room = room;
	return 1;
}

int add(struct list *l, struct guest *guest)
{
	if (l->count == l->room && !reserve(l, l->room == 0 ? 2 : 2 * l->room))
		return 0;
	l->guests[l->count] = *guest;
	l->count++;
	return 1;
}

char *copied(char *text)
{
	size_t length = 0;
	while (text[length])
		length++;
	char *copy = malloc(length + 1);
	if (copy != NULL)
		memcpy(copy, text, length + 1);
	return copy;
}

int invite(struct list *l)
{
	for (int i = 0; i < GUESTS; i++) {
		struct guest next;
		next.number = i * i;
		if (i % 3 == 0)
			next.name = copied("Ida");
		else
			next.name = copied("Johannes");
		if (next.name == NULL || !add(l, &next))
			return 0;
	}
	return reserve(l, l->count);
}

// A table of zeros but for each third place.
long *table(long number)
{
	long *t = calloc(WIDE, sizeof(long));
	if (t != NULL)
		for (int i = 0; i < WIDE; i += 3)
			t[i] = number;
	return t;
}

// Sums what stands in the middle of a table, again and again, by a pointer that goes through it.
int sums(void *argument)
{
	struct reader *r = argument;
	long *end = r->table + WIDE - 4;
	for (int round = 0; round < ROUNDS; round++)
		for (long *p = r->table + 4; p < end; p++)
			r->sum += *p;
	return 0;
}

int main(void)
{
	struct list l;
	struct reader readers[READERS];
	thrd_t threads[READERS];
	l.guests = NULL;
	l.count = 0;
	l.room = 0;
	for (int i = 0; i < READERS; i++) {
		readers[i].table = table(i + 1);
		readers[i].sum = 0;
		if (readers[i].table == NULL || thrd_create(&threads[i], sums, &readers[i]) != thrd_success)
			return 1;
	}
	if (!invite(&l))
		return 1;
	for (int i = 0; i < READERS; i++) {
		thrd_join(threads[i], NULL);
		printf("reader %d: %ld\n", i, readers[i].sum);
		free(readers[i].table);
	}
	int sum = 0;
	for (size_t i = 0; i < l.count; i++)
		sum += l.guests[i].number;
	printf("%zu guests in room for %zu: %s to %s, %d\n", l.count, l.room, l.guests[0].name, l.guests[l.count - 1].name, sum);
	for (size_t i = 0; i < l.count; i++)
		free(l.guests[i].name);
	free(l.guests);
	return 0;
}
