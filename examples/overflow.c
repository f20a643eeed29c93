#include <stdio.h>

// The bug: there are 26 letters, and the text has a z.
#define LETTERS 25

int main(void)
{
	char *text = "the quick brown fox jumps over the lazy dog";
	int count[LETTERS];
	for (int i = 0; i < LETTERS; i++)
		count[i] = 0;
	for (char *p = text; *p; p++)
		if (*p >= 'a' && *p <= 'z')
			count[*p - 'a']++;
	for (int i = 0; i < LETTERS; i++)
		if (count[i] > 1)
			printf("%c %d\n", 'a' + i, count[i]);
	return 0;
}
