/*
 * cache.c - a cache of what a service has made, so that it needn't make it again.
 *
 * An entry is found by its key in a table of chains, and stands in a list that goes from the oldest one to the newest. It is good until its
 * time is over. Where there are too many entries, or too many bytes in them, the oldest goes.
 */
#include <stdio.h>
#include <stdlib.h>
#include <string.h>

#define BUCKETS 16
#define MAX_ENTRIES 17
#define MAX_BYTES 20000

typedef unsigned long Time;

typedef enum { CACHE_OK, CACHE_TOO_LARGE, CACHE_NO_MEMORY } Result;

typedef struct entry {
	struct entry *chain;		/* the next one in its bucket */
	struct entry *older, *newer;
	unsigned hash;
	char *key;
	char *value;
	size_t size;
	Time ends;
} Entry;

typedef struct {
	Entry *buckets[BUCKETS];
	Entry *oldest, *newest;
	int entries;
	size_t bytes;
	int hits, misses, expired, evicted;
	size_t most_bytes;
} Cache;

static size_t length_of(const char *s)
{
	size_t n = 0;
	while (s[n] != '\0')
		n++;
	return n;
}

static int same(const char *a, const char *b)
{
	while (*a != '\0' && *a == *b) {
		a++;
		b++;
	}
	return *a == *b;
}

static unsigned hash(const char *key)
{
	unsigned h = 2166136261u;
	for (; *key != '\0'; key++)
		h = (h ^ (unsigned char)*key) * 16777619u;
	return h ^ h >> 16;
}

static Entry *cache_find(const Cache *cache, const char *key, unsigned h)
{
	Entry *e = cache->buckets[h % BUCKETS];
	while (e != NULL && (e->hash != h || !same(e->key, key)))
		e = e->chain;
	return e;
}

/* Takes an entry out. */
static void cache_drop(Cache *cache, Entry *e)
{
	Entry **link = &cache->buckets[e->hash % BUCKETS];
	while (*link != e)
		link = &(*link)->chain;
	*link = e->chain;
	if (e->older != NULL)
		e->older->newer = e->newer;
	else
		cache->oldest = e->newer;
	if (e->newer != NULL)
		e->newer->older = e->older;
	else
		cache->newest = e->older;
	cache->entries--;
	cache->bytes -= e->size;
	free(e->value);
	free(e->key);
	free(e);
}

/* The entry of the key, which stays the cache's own, or NULL. */
static const Entry *cache_get(Cache *cache, const char *key, Time now)
{
	Entry *e = cache_find(cache, key, hash(key));
	if (e != NULL && e->ends <= now) {
		cache_drop(cache, e);
		cache->expired++;
		e = NULL;
	}
	if (e == NULL)
		cache->misses++;
	else
		cache->hits++;
	return e;
}

static void cache_make_room(Cache *cache, size_t size)
{
	while (cache->entries >= MAX_ENTRIES || cache->bytes + size > MAX_BYTES) {
		cache_drop(cache, cache->oldest);
		cache->evicted++;
	}
}

/* An entry that stands nowhere yet. */
static Entry *make_entry(const char *key, char *value, size_t size, Time ends)
{
	size_t length = length_of(key);
	Entry *e = malloc(sizeof(Entry));
	if (e == NULL)
		return NULL;
	e->key = malloc(length + 1);
	if (e->key == NULL) {
		free(e);
		return NULL;
	}
	memcpy(e->key, key, length + 1);
	e->hash = hash(key);
	e->value = value;
	e->size = size;
	e->ends = ends;
	return e;
}

/* Puts a value that malloc gave; it is the cache's own from then on, if this ends with CACHE_OK. */
static Result cache_put(Cache *cache, const char *key, char *value, size_t size, Time ends)
{
	Entry **bucket, *before, *e;
	if (size > MAX_BYTES)
		return CACHE_TOO_LARGE;
	e = make_entry(key, value, size, ends);
	if (e == NULL)
		return CACHE_NO_MEMORY;
	before = cache_find(cache, key, e->hash);
	if (before != NULL)
		cache_drop(cache, before);
	cache_make_room(cache, size);
	bucket = &cache->buckets[e->hash % BUCKETS];
	e->chain = *bucket;
	*bucket = e;
	e->newer = NULL;
	e->older = cache->newest;
	if (cache->newest != NULL)
		cache->newest->newer = e;
	else
		cache->oldest = e;
	cache->newest = e;
	cache->entries++;
	cache->bytes += size;
	if (cache->bytes > cache->most_bytes)
		cache->most_bytes = cache->bytes;
	return CACHE_OK;
}

/* Takes out whatever is over. */
static void cache_sweep(Cache *cache, Time now)
{
	Entry *e = cache->oldest;
	while (e != NULL) {
		Entry *newer = e->newer;
		if (e->ends <= now) {
			cache_drop(cache, e);
			cache->expired++;
		}
		e = newer;
	}
}

/* ---- a service that asks it: small users that last, pages, and large lists that are soon out of date */

#define ROW 64
#define KEY_ROOM 24
#define REQUESTS 64
#define BUSY 44
#define THINGS 16
#define LISTS 4

typedef enum { USER, PAGE, LIST } Kind;

static Cache cache;
static unsigned seed = 7;

static unsigned draw(unsigned below)
{
	seed = seed * 1103515245u + 12345u;
	return (seed >> 16) % below;
}

static const char *name_of(Kind kind)
{
	switch (kind) {
	case USER: return "user/";
	case PAGE: return "page/";
	default: return "list/";
	}
}

static int rows_of(Kind kind, unsigned number)
{
	switch (kind) {
	case USER: return 1 + number % 2;
	case PAGE: return 4 + number % 7;
	default: return 40 + number * 5;
	}
}

static Time life_of(Kind kind)
{
	switch (kind) {
	case USER: return 1000;
	case PAGE: return 20;
	default: return 12;
	}
}

/* Writes the key of such a thing: its name, and a number of two digits. */
static void write_key(char *to, Kind kind, unsigned number)
{
	const char *name = name_of(kind);
	size_t n = length_of(name);
	memcpy(to, name, n);
	to[n] = '0' + number / 10;
	to[n + 1] = '0' + number % 10;
	to[n + 2] = '\0';
}

/* Makes the value of a key: rows that begin with it. */
static char *render(const char *key, int rows)
{
	char row[ROW];
	size_t n = length_of(key);
	char *value = malloc((size_t)rows * ROW);
	if (value == NULL)
		return NULL;
	memcpy(row, "................................................................", ROW);
	memcpy(row, key, n + 1);
	for (int i = 0; i < rows; i++)
		memcpy(value + i * ROW, row, ROW);
	return value;
}

/* Serves one request: whether what it got is what the key stands for. */
static int serve(Cache *from, Kind kind, unsigned number, Time now)
{
	char key[KEY_ROOM];
	int rows = rows_of(kind, number);
	const Entry *e;
	char *value;
	write_key(key, kind, number);
	e = cache_get(from, key, now);
	if (e != NULL)
		return e->size == (size_t)rows * ROW && same(e->value + (rows - 1) * ROW, key);
	value = render(key, rows);
	if (value == NULL)
		return 0;
	if (cache_put(from, key, value, (size_t)rows * ROW, now + life_of(kind)) != CACHE_OK) {
		free(value);
		return 0;
	}
	return 1;
}

static void show(const char *when, const Cache *of)
{
	printf("%s: %d entries, %zu bytes, %d hits, %d misses, %d expired, %d evicted\n", when, of->entries, of->bytes, of->hits,
	       of->misses, of->expired, of->evicted);
}

int main(void)
{
	int wrong = 0;
	for (Time now = 0; now < REQUESTS; now++) {
		Kind kind = now >= BUSY || now % 4 == 0 ? USER : now % 4 == 2 ? LIST : PAGE;
		if (!serve(&cache, kind, draw(kind == LIST ? LISTS : THINGS), now))
			wrong++;
		if (now % 10 == 9)
			cache_sweep(&cache, now);
		if (now == BUSY - 1)
			show("busy", &cache);
	}
	show("quiet", &cache);
	printf("at most %zu bytes, %d wrong\n", cache.most_bytes, wrong);
	return 0;
}
