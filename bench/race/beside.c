#include <stdio.h>
#include <threads.h>

// Two threads write the first byte, and one of them the seven beside it, too.
char all[8];

int work(void *unused)
{
	all[0] = 1;
	return 0;
}

int main(void)
{
	thrd_t thread;
	thrd_create(&thread, work, NULL);
	for (int k = 0; k < 2000; k++)
		all[k % 7 + 1] = 1;
	all[0] = 2;
	thrd_join(thread, NULL);
	printf("%d\n", all[0] + all[7]);
	return 0;
}
