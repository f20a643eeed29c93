#include <stdio.h>

int average(int *of, int n) {
  int sum = 0;
  for (int i = 0; i < n; i++)
    sum = sum + of[i];
  return sum / n;
}

int main(void) {
  int marks[3];
  marks[0] = 1;
  marks[1] = 2;
  marks[2] = 6;
  printf("%d\n", average(marks, 3));
  printf("%d\n", average(marks, 0));
  return 0;
}
