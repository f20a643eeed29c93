#include <stdio.h>
#include <stdlib.h>

int main(void) {
  char *kept = malloc(16);
  char *last = kept;
  free(kept);
  kept = malloc(16);
  if (kept != last)
    printf("another object\n");
  free(kept);
  return 0;
}
