#include <stdio.h>
#include <stdlib.h>

int main(void) {
  char *message = malloc(8);
  for (int i = 0; i < 8; i++)
    message[i] = i;
  int *length = (int *)(message + 1);
  printf("%d\n", *length);
  free(message);
  return 0;
}
