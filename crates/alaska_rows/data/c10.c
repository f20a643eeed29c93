#include <stdlib.h>

int main(void) {
  char *line = malloc(8);
  for (int i = 0; i < 7; i++)
    line[i] = ' ';
  line[7] = 0;
  while (*line == ' ')
    line = line + 1;
  free(line);
  return 0;
}
