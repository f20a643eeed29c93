#include <stdatomic.h>
#include <stdio.h>
#include <threads.h>

// Four threads count without a mutex: each draws tickets from one counter, which no two of them get alike, and adds to a sum and to a
// balance, which ends where it began.

enum { THREADS = 4, ROUNDS = 500 };

atomic_int next_ticket;
atomic_long sum;
_Atomic unsigned balance = 7;
char drawn[THREADS * ROUNDS];

int draw(void *argument)
{
	int *mine = argument;
	for (int i = 0; i < ROUNDS; i++) {
		int ticket = atomic_fetch_add(&next_ticket, 1);
		drawn[ticket]++;
		sum += ticket;
		balance -= 3;
		atomic_fetch_add(&balance, 3);
		(*mine)++;
	}
	return 0;
}

int main(void)
{
	thrd_t threads[THREADS];
	int counts[THREADS];
	for (int i = 0; i < THREADS; i++) {
		counts[i] = 0;
		if (thrd_create(&threads[i], draw, &counts[i]) != thrd_success)
			return 1;
	}
	int all = 0;
	for (int i = 0; i < THREADS; i++) {
		thrd_join(threads[i], NULL);
		all += counts[i];
	}
	int once = 0;
	for (int i = 0; i < THREADS * ROUNDS; i++)
		once += drawn[i] == 1;
	printf("%d tickets, %d of them drawn once\n", atomic_load(&next_ticket), once);
	printf("sum %ld, balance %u, rounds %d\n", sum, balance, all);
	return 0;
}
