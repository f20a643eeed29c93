#include <stdio.h>
#include <stdlib.h>

// Sixteen rounds, each of a summary, which stays, and of data, which take the rest of a sub-heap and are freed. So each of the 16 sub-heaps
// holds one small object, and none has room for one of its own size. With --evacuate 1 the summaries go together, and 15 are empty.
char *summary[16];
char *data[16];

int main(void)
{
	for (int i = 0; i < 16; i++) {
		summary[i] = malloc(1000);
		data[i] = malloc(64000);
		summary[i][0] = i;
	}
	for (int i = 0; i < 16; i++)
		free(data[i]);
	char *whole = malloc(65536);
	int sum = 0;
	for (int i = 0; i < 16; i++)
		sum += summary[i][0];
	printf("%d %d\n", whole != NULL, sum);
	return 0;
}
