#include <stdio.h>
#include <stdlib.h>
typedef unsigned char Byte;
typedef Byte Block[4], *Bytes;
typedef struct pair Pair;
struct pair { Block b; Pair *next; };
typedef struct { Pair *first; struct { int n; } count; } List;
typedef long Row[2][3];
Row rows;
void add(List *l, Byte b) {
  Pair *p = malloc(sizeof(Pair));
  for (int i = 0; i < sizeof(Block); i++) p->b[i] = b + i;
  p->next = l->first;
  l->first = p;
  l->count.n++; }
long sum(Bytes from, size_t n) {
  long s = 0;
  do { n--; s += from[n]; } while (n);
  return s; }
int main(void) {
  List l;
  const Byte last = 300;
  Row *r = &rows;
  l.first = NULL; l.count.n = 0;
  add(&l, 1); add(&l, 254);
  (*r)[1][2] = 7;
  printf("%d %d %d %d\n", l.first->b[0], l.first->b[3], l.first->next->b[3], last);
  printf("%zu %zu %zu %zu\n", sizeof(Block), sizeof(Pair), sizeof(List), sizeof(Row));
  printf("%ld %d %ld\n", rows[1][2], l.count.n, sum(l.first->b, sizeof(Block)));
  for (Pair *p = l.first, *q; p; p = q) { q = p->next; free(p); }
  return (Byte)-1; }
