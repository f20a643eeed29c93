#include <stdio.h>
#include <threads.h>

// race.c with a mutex, so that one thread raises the count only behind the other one's unlock, and `--mode race` says `race: none`.
mtx_t lock;
int count;

int work(void *unused)
{
	for (int i = 0; i < 100; i++) {
		mtx_lock(&lock);
		count++;
		mtx_unlock(&lock);
	}
	return 0;
}

int main(void)
{
	thrd_t one;
	thrd_t other;
	mtx_init(&lock, mtx_plain);
	thrd_create(&one, work, NULL);
	thrd_create(&other, work, NULL);
	thrd_join(one, NULL);
	thrd_join(other, NULL);
	printf("%d\n", count);
	return 0;
}
