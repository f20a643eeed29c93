#include <stdio.h>
#include <stdlib.h>

// 256 objects, of which three of four are freed: what is left stands scattered, until a barrier slides it down.
char *all[256];

int main(void)
{
	for (int i = 0; i < 256; i++)
		all[i] = malloc(1000);
	for (int i = 0; i < 256; i++)
		if (i % 4 != 0)
			free(all[i]);
	for (int i = 0; i < 256; i = i + 4)
		all[i][0] = i % 100;
	printf("%d\n", all[252][0]);
	return 0;
}
