#include <stdio.h>

int main(void)
{
	int *p = NULL;
	printf("before\n");
	*p = 1; // p points to nothing: C says nothing of this
	return 0;
}
