/*
 * queue.c - a queue of bounded room between threads: some make orders, others carry them out on accounts.
 *
 * A queue and each account has a mutex of its own. Who finds the queue full, or empty, asks again. Which thread carries out which order is left
 * open; what is in the accounts at the end is not.
 */
#include <stdio.h>
#include <stdlib.h>
#include <string.h>
#include <threads.h>

#define ROOM 8
#define PRODUCERS 2
#define CONSUMERS 2
#define ORDERS 40
#define ACCOUNTS 4
#define NOTE 20

typedef enum { DEPOSIT, WITHDRAWAL, TRANSFER, KINDS } Kind;

typedef struct {
	Kind kind;
	int producer, number;
	int account, other;
	long amount;
	char *note;
} Order;

/* ---- the queue: a ring of orders, which are whoever's took them out */

typedef enum { TAKEN, EMPTY, CLOSED } Answer;

typedef struct {
	mtx_t lock;
	Order *slots[ROOM];
	unsigned first, count;
	int producers;		/* those that may put something yet */
} Queue;

static int queue_init(Queue *q, int producers)
{
	q->first = 0;
	q->count = 0;
	q->producers = producers;
	return mtx_init(&q->lock, mtx_plain) == thrd_success;
}

/* Puts the order in where there is room, and tells whether there was. */
static int queue_offer(Queue *q, Order *order)
{
	int has_room;
	mtx_lock(&q->lock);
	has_room = q->count < ROOM;
	if (has_room) {
		q->slots[(q->first + q->count) % ROOM] = order;
		q->count++;
	}
	mtx_unlock(&q->lock);
	return has_room;
}

/* Takes out the order that was put in first. */
static Answer queue_poll(Queue *q, Order **order)
{
	Answer answer = TAKEN;
	mtx_lock(&q->lock);
	if (q->count > 0) {
		*order = q->slots[q->first];
		q->first = (q->first + 1) % ROOM;
		q->count--;
	} else {
		answer = q->producers > 0 ? EMPTY : CLOSED;
	}
	mtx_unlock(&q->lock);
	return answer;
}

/* One producer puts nothing any more. */
static void queue_leave(Queue *q)
{
	mtx_lock(&q->lock);
	q->producers--;
	mtx_unlock(&q->lock);
}

/* ---- accounts */

typedef struct {
	mtx_t lock;
	long balance;
} Account;

static Account accounts[ACCOUNTS];
static Queue queue;

static void account_add(int account, long amount)
{
	mtx_lock(&accounts[account].lock);
	accounts[account].balance += amount;
	mtx_unlock(&accounts[account].lock);
}

/* ---- who makes orders */

static unsigned draw(unsigned *seed, unsigned below)
{
	*seed = *seed * 1103515245u + 12345u;
	return (*seed >> 16) % below;
}

/* The note of an order: the number of stars that its amount says, in an object of its own. */
static char *make_note(long amount)
{
	size_t n = amount % NOTE;
	char *note = malloc(n + 1);
	if (note == NULL)
		return NULL;
	memcpy(note, "********************", n);
	note[n] = '\0';
	return note;
}

static Order *make_order(int producer, int number, unsigned *seed)
{
	Order *order = malloc(sizeof(Order));
	if (order == NULL)
		return NULL;
	order->kind = draw(seed, KINDS);
	order->producer = producer;
	order->number = number;
	order->account = draw(seed, ACCOUNTS);
	order->other = (order->account + 1) % ACCOUNTS;
	order->amount = 1 + draw(seed, 500);
	order->note = make_note(order->amount);
	if (order->note == NULL) {
		free(order);
		return NULL;
	}
	return order;
}

/* A thread that puts orders in; its result is how many it made. */
static int produce(void *of)
{
	const int *producer = of;
	unsigned seed = *producer + 1;
	int made = 0;
	while (made < ORDERS) {
		Order *order = make_order(*producer, made, &seed);
		if (order == NULL)
			break;
		while (!queue_offer(&queue, order))
			;
		made++;
	}
	queue_leave(&queue);
	return made;
}

/* ---- who carries them out */

typedef struct {
	int orders[KINDS];
	long amounts[KINDS];
	long stars;
	int last[PRODUCERS];	/* the number of the last order of each producer */
	int wrong;		/* how many came before one that was put in earlier, or with another note */
} Tally;

static void tally_init(Tally *tally)
{
	for (int k = 0; k < KINDS; k++) {
		tally->orders[k] = 0;
		tally->amounts[k] = 0;
	}
	for (int p = 0; p < PRODUCERS; p++)
		tally->last[p] = -1;
	tally->stars = 0;
	tally->wrong = 0;
}

static void carry_out(const Order *order, Tally *tally)
{
	int stars = 0;
	switch (order->kind) {
	case TRANSFER:
		account_add(order->other, order->amount);
		/* fall through */
	case WITHDRAWAL:
		account_add(order->account, -order->amount);
		break;
	case DEPOSIT:
		account_add(order->account, order->amount);
		break;
	default:
		tally->wrong++;
	}
	while (order->note[stars] == '*')
		stars++;
	if (stars != order->amount % NOTE || order->number <= tally->last[order->producer])
		tally->wrong++;
	tally->last[order->producer] = order->number;
	tally->orders[order->kind]++;
	tally->amounts[order->kind] += order->amount;
	tally->stars += stars;
}

/* A thread that takes orders out until there will be no more. */
static int consume(void *of)
{
	Tally *tally = of;
	Answer answer;
	do {
		Order *order = NULL;
		answer = queue_poll(&queue, &order);
		if (answer != TAKEN)
			continue;
		carry_out(order, tally);
		free(order->note);
		free(order);
	} while (answer != CLOSED);
	return 0;
}

/* ---- all of them */

static const char *name_of(Kind kind)
{
	switch (kind) {
	case DEPOSIT:
		return "deposits";
	case WITHDRAWAL:
		return "withdrawals";
	default:
		return "transfers";
	}
}

/* Adds up what each consumer did. */
static void show(const Tally *tallies, int made)
{
	int wrong = 0;
	long stars = 0;
	for (int k = 0; k < KINDS; k++) {
		int orders = 0;
		long amount = 0;
		for (int c = 0; c < CONSUMERS; c++) {
			orders += tallies[c].orders[k];
			amount += tallies[c].amounts[k];
		}
		printf("%d %s of %ld\n", orders, name_of(k), amount);
	}
	for (int c = 0; c < CONSUMERS; c++) {
		stars += tallies[c].stars;
		wrong += tallies[c].wrong;
	}
	for (int a = 0; a < ACCOUNTS; a++)
		printf("account %d has %ld\n", a, accounts[a].balance);
	printf("%d orders, %ld stars, %d wrong, %u left\n", made, stars, wrong, queue.count);
}

int main(void)
{
	thrd_t producers[PRODUCERS], consumers[CONSUMERS];
	int numbers[PRODUCERS];
	Tally tallies[CONSUMERS];
	int made = 0;
	if (!queue_init(&queue, PRODUCERS))
		return 1;
	for (int a = 0; a < ACCOUNTS; a++)
		if (mtx_init(&accounts[a].lock, mtx_plain) != thrd_success)
			return 1;
	for (int c = 0; c < CONSUMERS; c++) {
		tally_init(&tallies[c]);
		if (thrd_create(&consumers[c], consume, &tallies[c]) != thrd_success)
			return 1;
	}
	for (int p = 0; p < PRODUCERS; p++) {
		numbers[p] = p;
		if (thrd_create(&producers[p], produce, &numbers[p]) != thrd_success)
			return 1;
	}
	for (int p = 0; p < PRODUCERS; p++) {
		int orders = 0;
		thrd_join(producers[p], &orders);
		made += orders;
	}
	for (int c = 0; c < CONSUMERS; c++)
		thrd_join(consumers[c], NULL);
	show(tallies, made);
	for (int a = 0; a < ACCOUNTS; a++)
		mtx_destroy(&accounts[a].lock);
	mtx_destroy(&queue.lock);
	return 0;
}
