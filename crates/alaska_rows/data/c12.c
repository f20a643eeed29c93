#include <stdio.h>

int main(void) {
  char *name = "alaska";
  printf("%s\n", name);
  name[0] = 'A';
  printf("%s\n", name);
  return 0;
}
