#include <stdio.h>
#include <threads.h>

// Two threads count to 100 each, and no mutex guards the count: that is a race, and in some orders counts are lost. With one worker the second
// thread begins once the first has ended, so that the sum is right; `--mode race` tells the race all the same. locked.c has the mutex.
int count;

int work(void *unused)
{
	for (int i = 0; i < 100; i++)
		count++;
	return 0;
}

int main(void)
{
	thrd_t one;
	thrd_t other;
	thrd_create(&one, work, NULL);
	thrd_create(&other, work, NULL);
	thrd_join(one, NULL);
	thrd_join(other, NULL);
	printf("%d\n", count);
	return 0;
}
