#include <stdio.h>

char text[8];
char other[8];

int holds(char *from, int size, char *p) {
  return p >= from && p < from + size;
}

int main(void) {
  printf("%d\n", holds(text, 8, text + 3));
  printf("%d\n", holds(text, 8, other + 3));
  return 0;
}
