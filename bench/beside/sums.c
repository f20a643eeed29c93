#include <stdio.h>

// Sums of numbers, of their squares and of their digits, in locals alone.
int main(void)
{
	unsigned long numbers = 0, squares = 0, digits = 0;
	for (unsigned long i = 0; i < 10000000; i++) {
		numbers += i;
		squares += i * i;
	}
	for (unsigned long i = 0; i < 2000000; i++)
		for (unsigned long n = i; n > 0; n /= 10)
			digits += n % 10;
	printf("%lu %lu %lu\n", numbers, squares, digits);
	return 0;
}
