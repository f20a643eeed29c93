#include <stdio.h>

int sign(int n) {
  if (n > 0)
    return 1;
  if (n < 0)
    return -1;
}

int main(void) {
  printf("%d\n", sign(5));
  printf("%d\n", sign(0));
  return 0;
}
