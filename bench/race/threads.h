// The calls of <threads.h> that bench/race.sh needs, by pthreads: helgrind and gcc's thread sanitizer see those, and not the calls of C11.
#pragma once

#include <pthread.h>
#include <stdlib.h>

typedef pthread_t thrd_t;
typedef pthread_mutex_t mtx_t;
enum { mtx_plain, thrd_success = 0, thrd_error };

struct start {
	int (*function)(void *);
	void *argument;
};

static inline void *begin(void *given)
{
	struct start start = *(struct start *)given;
	free(given);
	return (void *)(long)start.function(start.argument);
}

static inline int thrd_create(thrd_t *thread, int (*function)(void *), void *argument)
{
	struct start *start = malloc(sizeof *start);
	*start = (struct start){ function, argument };
	return pthread_create(thread, NULL, begin, start) ? thrd_error : thrd_success;
}

static inline int thrd_join(thrd_t thread, int *result)
{
	void *given;
	pthread_join(thread, &given);
	if (result)
		*result = (int)(long)given;
	return thrd_success;
}

static inline int mtx_init(mtx_t *mutex, int kind)
{
	return pthread_mutex_init(mutex, NULL);
}

static inline int mtx_lock(mtx_t *mutex)
{
	return pthread_mutex_lock(mutex);
}

static inline int mtx_unlock(mtx_t *mutex)
{
	return pthread_mutex_unlock(mutex);
}

static inline void mtx_destroy(mtx_t *mutex)
{
	pthread_mutex_destroy(mutex);
}
