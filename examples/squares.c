#include <stdio.h>

int main(void) {
  int n = 1;
  printf("%d\n", n * n);
  int next = n + 1;
  printf("%d\n", next * next);
  int last = next + 1;
  printf("%d\n", last * last);
  return 0;
}
