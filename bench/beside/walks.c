#include <stdio.h>
#include <stdlib.h>

#define COUNT 10000
#define ROUNDS 150

// Walks over an array: each number gets the one before it added, the array is turned round, and sums are taken by strides.
int main(void)
{
	unsigned *a = malloc(COUNT * sizeof(unsigned));
	for (int i = 0; i < COUNT; i++)
		a[i] = i;
	for (int k = 0; k < ROUNDS; k++) {
		for (int i = 1; i < COUNT; i++)
			a[i] += a[i - 1];
		for (int i = 0; i < COUNT / 2; i++) {
			unsigned t = a[i];
			a[i] = a[COUNT - 1 - i];
			a[COUNT - 1 - i] = t;
		}
	}
	unsigned sum = 0;
	for (int stride = 1; stride < 1000; stride++)
		for (int i = 0; i < COUNT; i += stride)
			sum = sum * 31 + a[i];
	printf("%u %u\n", a[COUNT / 3], sum);
	free(a);
	return 0;
}
