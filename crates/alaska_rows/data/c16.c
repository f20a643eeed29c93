#include <stdio.h>

unsigned long hash(int *key) {
  unsigned long *bits = (unsigned long *)&key;
  return *bits / 16 % 64;
}

int main(void) {
  int n = 5;
  printf("%lu\n", hash(&n));
  return 0;
}
