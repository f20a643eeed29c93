#include <stdio.h>
#include <stdlib.h>

#define LENGTH 100000
#define ROUNDS 40
#define BUCKETS 256

// A text of words of drawn letters.
char *drawn_text(unsigned long n)
{
	char *text = malloc(n);
	unsigned long x = 1;
	for (unsigned long i = 0; i < n; i++) {
		x = (x * 1103515245 + 12345) % 2147483648;
		unsigned long letter = x / 65536 % 32;
		text[i] = letter < 26 ? 'a' + letter : ' ';
	}
	text[n - 1] = ' ';
	return text;
}

// Hashes of a text: of its whole, begun in another way each time, and of its words, counted by their buckets.
int main(void)
{
	char *text = drawn_text(LENGTH);
	unsigned long all = 0;
	for (int k = 0; k < ROUNDS; k++) {
		unsigned long h = 5381 + k;
		for (int i = 0; i < LENGTH; i++)
			h = h * 33 + text[i];
		all ^= h;
	}
	unsigned *count = malloc(BUCKETS * sizeof(unsigned));
	for (int i = 0; i < BUCKETS; i++)
		count[i] = 0;
	for (int k = 0; k < ROUNDS; k++) {
		unsigned long h = 5381;
		for (int i = 0; i < LENGTH; i++) {
			char c = text[i];
			if (c == ' ') {
				count[h % BUCKETS]++;
				h = 5381;
			} else
				h = (h ^ c) * 33;
		}
	}
	unsigned most = 0;
	for (int i = 0; i < BUCKETS; i++)
		if (count[i] > most)
			most = count[i];
	printf("%lu %u\n", all, most);
	free(count);
	free(text);
	return 0;
}
