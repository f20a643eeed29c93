#include <stdio.h>
int f(int a, int b) {
  int r = 0;
  switch (a) {
  case 0:
    switch (b) {
    case 0: r = 1; break;
    case 1: r = 2;
    default: r = r + 3; }
    r = r + 10;
  case 1:
    r = r + 100;
    break;
  default:
    switch (b) { case 0: break; case 1: return 9; }
    r = r + 1000; }
  return r; }
int main(void) {
  for (int a = 0; a < 3; a++) printf("%d %d %d\n", f(a, 0), f(a, 1), f(a, 7));
  return 0; }
