#include <stdio.h>

int main(void) {
  for (int bit = 28; bit < 40; bit = bit + 4)
    printf("%u\n", 1u << bit);
  return 0;
}
