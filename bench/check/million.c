#include <stdio.h>
#include <stdlib.h>

// 64 slots, each with an object or none. Each round draws a slot, gives up its object and makes another. It breaks no rule of C.
#define SLOTS 64
#define ROUNDS 99000

struct item {
	int round;
	int slot;
};

struct item *slot[SLOTS];

int main(void)
{
	long sum = 0;
	unsigned x = 1;
	for (int i = 0; i < ROUNDS; i++) {
		x = x * 1103515245 + 12345;
		int k = x / 65536 % SLOTS;
		if (slot[k] != NULL) {
			sum = sum + slot[k]->round;
			free(slot[k]);
		}
		slot[k] = malloc(sizeof(struct item));
		slot[k]->round = i;
	}
	for (int k = 0; k < SLOTS; k++) {
		sum = sum + slot[k]->round;
		free(slot[k]);
	}
	printf("%ld\n", sum);
	return 0;
}
