#include <stdio.h>
#include <stdlib.h>

int main(void)
{
	int *p = malloc(12); /* three ints */
	int i = 2;
	p[0] = 6;
	p[1] = 7;
	p[i] = p[0] * p[1];
	printf("%d\n", p[i]);
	free(p);
	return 0;
}
