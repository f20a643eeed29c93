#include <stdio.h>
#include <string.h>

int main(void) {
  char word[8];
  int length = 6;
  memcpy(word, "hello", length);
  memcpy(word + 1, word, length);
  word[0] = 'o';
  printf("%s\n", word);
  return 0;
}
