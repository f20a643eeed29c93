#include <stdio.h>

int main(void) {
  int n = 1;
  for (int i = 0; i < 40; i++)
    n = n * 2;
  printf("%d\n", n);
  return 0;
}
