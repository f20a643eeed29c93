#include <stdio.h>
#include <stdlib.h>

int main(void)
{
	int *p = malloc(4);
	*p = 1;
	printf("%d\n", *p);
	free(p);
	*p = 2; // p is dead: C says nothing of this
	return 0;
}
