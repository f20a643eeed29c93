#include <stdio.h>

int largest(int *of, int n) {
  int best;
  for (int i = 0; i < n; i++)
    if (i == 0 || of[i] > best)
      best = of[i];
  return best;
}

int main(void) {
  int none[1];
  printf("%d\n", largest(none, 0));
  return 0;
}
