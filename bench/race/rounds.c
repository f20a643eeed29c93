#include <stdio.h>
#include <threads.h>

// Four threads raise a number 2000 times each, under a mutex. No two of its accesses race.
enum { THREADS = 4, ROUNDS = 2000 };

mtx_t lock;
long number;

int work(void *unused)
{
	for (int i = 0; i < ROUNDS; i++) {
		mtx_lock(&lock);
		number++;
		mtx_unlock(&lock);
	}
	return 0;
}

int main(void)
{
	thrd_t threads[THREADS];
	mtx_init(&lock, mtx_plain);
	for (int i = 0; i < THREADS; i++)
		thrd_create(&threads[i], work, NULL);
	for (int i = 0; i < THREADS; i++)
		thrd_join(threads[i], NULL);
	printf("%ld\n", number);
	return 0;
}
