#include <stdio.h>
#include <stdlib.h>
#include <string.h>

#define SLOTS 50000
#define PHASES 8
#define ROUNDS 60000
#define MOST 1024

char *object[SLOTS];
unsigned long draws;

unsigned long draw(void)
{
	draws = (draws * 1103515245 + 12345) % 2147483648;
	return draws / 65536;
}

// Slots whose objects are given up for others, in phases: in each all that are asked for have one size, 2^3 bytes in the first and 2^10 in
// the last. Then most slots are emptied and nothing more is asked for or given up: the rest is walked. Prints how many bytes were asked for
// and are live.
int main(void)
{
	char *from = malloc(MOST);
	unsigned *size = malloc(SLOTS * sizeof(unsigned));
	unsigned long live = MOST + SLOTS * sizeof(unsigned);
	for (int i = 0; i < MOST; i++)
		from[i] = i % 100;
	unsigned n = 8;
	for (int phase = 0; phase < PHASES; phase++) {
		for (int k = 0; k < ROUNDS; k++) {
			unsigned long at = draw() * 32768;
			at = (at + draw()) % SLOTS;
			if (object[at] != NULL) {
				free(object[at]);
				live -= size[at];
			}
			object[at] = malloc(n);
			memcpy(object[at], from, n);
			size[at] = n;
			live += n;
		}
		n *= 2;
	}
	for (int i = 0; i < SLOTS; i++)
		if (i % 8 != 0 && object[i] != NULL) {
			free(object[i]);
			object[i] = NULL;
			live -= size[i];
		}
	unsigned long sum = 0;
	for (int k = 0; k < 20; k++)
		for (int i = 0; i < SLOTS; i++)
			if (object[i] != NULL)
				sum += object[i][size[i] - 1];
	printf("sum %lu\n", sum);
	printf("live %lu\n", live);
	return 0;
}
