#include <stdio.h>

/* A calculator that reads its numbers before their operators, as "3 4 + 5 *". */
#define DEEP 16

typedef enum { FINE, TOO_DEEP, TOO_FEW, BY_ZERO, NO_SUCH } Fault;
typedef long Number;

Number stack[DEEP];
int depth;

Fault push(Number n)
{
	if (depth == DEEP)
		return TOO_DEEP;
	stack[depth] = n;
	depth++;
	return FINE;
}

Fault combine(char op)
{
	if (depth < 2)
		return TOO_FEW;
	Number *a = &stack[depth - 2], b = stack[depth - 1];
	depth--;
	switch (op) {
	case '+':
		*a += b;
		break;
	case '-':
		*a -= b;
		break;
	case '*':
		*a *= b;
		break;
	case '/':
	case '%':
		if (b == 0)
			return BY_ZERO;
		if (op == '/')
			*a /= b;
		else
			*a %= b;
	}
	return FINE;
}

/* The fault of the first thing that has one, and the result on the stack where there is none. */
Fault reckon(char *text)
{
	Fault f = FINE;
	Number n = 0;
	int in_number = 0;
	char c;
	depth = 0;
	do {
		c = *text;
		text++;
		switch (c) {
		case '0': case '1': case '2': case '3': case '4':
		case '5': case '6': case '7': case '8': case '9':
			n = n * 10 + (c - '0');
			in_number = 1;
			continue;
		case ' ':
		case '\0':
		case '+': case '-': case '*': case '/': case '%':
			if (in_number)
				f = push(n);
			in_number = 0;
			n = 0;
			if (f == FINE && c != ' ' && c != '\0')
				f = combine(c);
			break;
		default:
			f = NO_SUCH;
		}
	} while (c != '\0' && f == FINE);
	return f == FINE && depth == 0 ? TOO_FEW : f;
}

void show(char *text)
{
	Fault f = reckon(text);
	printf("%s: ", text);
	switch (f) {
	case FINE:
		printf("%ld\n", stack[depth - 1]);
		break;
	case TOO_FEW:
		printf("too few numbers\n");
		break;
	case BY_ZERO:
		printf("divided by 0\n");
		break;
	default:
		printf("fault %d\n", f);
	}
}

int main(void)
{
	show("3 4 + 5 *");
	show("100 7 /2%");
	show("1 2 3");
	show("6 3 3 - /");
	show("1 +");
	show("2 x 3");
	show("1 1 1 1 1 1 1 1 1 1 1 1 1 1 1 1 1");
	show("");
	return 0;
}
