#include <stdio.h>
#include <stdlib.h>

#define SLOTS 1000
#define ROUNDS 1000000

char *slot[SLOTS];

// A thousand slots, of which drawn ones give up their object and ask for another of a drawn size.
int main(void)
{
	unsigned long x = 1;
	long sum = 0;
	for (int k = 0; k < ROUNDS; k++) {
		x = (x * 1103515245 + 12345) % 2147483648;
		unsigned long at = x / 65536 % SLOTS;
		x = (x * 1103515245 + 12345) % 2147483648;
		char *p = slot[at];
		if (p != NULL) {
			sum += *p;
			free(p);
		}
		p = malloc(1 + x / 65536 % 1000);
		*p = k % 100;
		slot[at] = p;
	}
	printf("%ld\n", sum);
	return 0;
}
