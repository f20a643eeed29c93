#include <stdio.h>
int by_char(char c) { switch (c) { case 'a': return 1; case -1: return 2; case 255: return 3; default: return 4; } }
int by_byte(unsigned char c) { switch (c) { case -1: return 1; case 255: return 2; } return 3; }
int by_long(long n) { switch (n) { case 1: return 1; case 4294967297: return 2; case -1: return 3; } return 4; }
int by_unsigned(unsigned n) { switch (n) { case -1: return 1; case 0: return 2; } return 3; }
int by_sum(int n) { switch (n + 1u) { case -1: return 1; case 0: return 2; } return 3; }
int main(void) {
  printf("%d %d %d\n", by_char('a'), by_char(255), by_char(0));
  printf("%d %d %d\n", by_byte(255), by_byte(-1), by_byte(0));
  printf("%d %d %d %d\n", by_long(1), by_long(4294967297), by_long(4294967295), by_long(-1));
  printf("%d %d %d\n", by_unsigned(4294967295u), by_unsigned(0), by_unsigned(5));
  printf("%d %d %d\n", by_sum(-2), by_sum(-1), by_sum(0));
  return 0; }
