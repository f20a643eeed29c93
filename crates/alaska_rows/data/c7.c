#include <stdio.h>

int main(void) {
  int row[4];
  for (int i = 0; i < 4; i++)
    row[i] = i;
  for (int *p = row + 3; p >= row; p = p - 1)
    printf("%d\n", *p);
  return 0;
}
