#include <stdio.h>
#include <stdlib.h>
#include <string.h>

#define COUNT 100000
#define MOST 1024

char *object[COUNT];
unsigned long draws;

unsigned long draw(void)
{
	draws = (draws * 1103515245 + 12345) % 2147483648;
	return draws / 65536;
}

// Objects of drawn sizes, each written whole, of which three of four are given up, here and there. Behind that nothing is asked for or
// given up: the rest is walked. Prints how many bytes were asked for and are live.
int main(void)
{
	char *from = malloc(MOST);
	unsigned *size = malloc(COUNT * sizeof(unsigned));
	unsigned long live = MOST + COUNT * sizeof(unsigned);
	for (int i = 0; i < MOST; i++)
		from[i] = i % 100;
	for (int i = 0; i < COUNT; i++) {
		size[i] = 1 + draw() % MOST;
		object[i] = malloc(size[i]);
		memcpy(object[i], from, size[i]);
	}
	for (int i = 0; i < COUNT; i++)
		if (draw() % 4 != 0) {
			free(object[i]);
			object[i] = NULL;
		} else
			live += size[i];
	unsigned long sum = 0;
	for (int k = 0; k < 10; k++)
		for (int i = 0; i < COUNT; i++)
			if (object[i] != NULL)
				sum += object[i][size[i] - 1];
	printf("sum %lu\n", sum);
	printf("live %lu\n", live);
	return 0;
}
