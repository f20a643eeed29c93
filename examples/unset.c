#include <stdio.h>

// Reads a number from a text, and tells whether the text is one.
int number(char *text, int *value)
{
	int n = 0;
	if (*text == 0)
		return 0;
	for (char *p = text; *p; p++) {
		if (*p < '0' || *p > '9')
			return 0;
		n = n * 10 + (*p - '0');
	}
	*value = n;
	return 1;
}

// The bug: the height is 48o, with a letter. Nobody asks whether it is a number, and it stays unset.
int main(void)
{
	int width;
	int height;
	number("640", &width);
	number("48o", &height);
	printf("%d\n", width * height);
	return 0;
}
