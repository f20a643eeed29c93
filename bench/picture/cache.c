#include <stdlib.h>

// A cache of 256 entries, which are larger in each of four rounds: the empty ones are filled, and then three of four are lost.
// It ends after STEPS entries that were filled or lost, which bench/picture.sh sets.
#define STEPS 2000

char *entries[256];
int lengths[4];

int main(void)
{
	int steps = 0;
	lengths[0] = 240;
	lengths[1] = 480;
	lengths[2] = 960;
	lengths[3] = 1920;
	for (int round = 0; round < 4; round++) {
		for (int i = 0; i < 256; i++)
			if (entries[i] == NULL && steps < STEPS) {
				entries[i] = malloc(lengths[round]);
				entries[i][0] = 1;
				steps++;
			}
		for (int i = 0; i < 256; i++)
			if (i % 4 != round && entries[i] != NULL && steps < STEPS) {
				free(entries[i]);
				entries[i] = NULL;
				steps++;
			}
	}
	return 0;
}
