#include <stdio.h>

int main(void) {
  int hours = 7;
  int minutes = 42;
  int seconds = 5;
  int total = hours * 60 * 60 + minutes * 60 + seconds;
  int day = 24 * 60 * 60;
  printf("%d\n", total);
  printf("%d\n", day - total);
  return 0;
}
