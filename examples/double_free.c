#include <stdio.h>
#include <stdlib.h>
#include <string.h>

// A message, whose text is an object of its own.
struct message {
	char *text;
	int length;
};

struct message *compose(char *text, int length)
{
	struct message *m = malloc(sizeof(struct message));
	m->text = malloc(length + 1);
	memcpy(m->text, text, length + 1);
	m->length = length;
	return m;
}

void discard(struct message *m)
{
	free(m->text);
	free(m);
}

// Tells whether the message was sent. The bug: it gives up the text of one that is too long, and so does whoever discards the message.
int deliver(struct message *m)
{
	if (m->length > 10) {
		free(m->text);
		return 0;
	}
	printf("%s\n", m->text);
	return 1;
}

int main(void)
{
	struct message *m = compose("hello", 5);
	deliver(m);
	discard(m);
	m = compose("a longer message", 16);
	if (!deliver(m))
		printf("too long\n");
	discard(m);
	return 0;
}
