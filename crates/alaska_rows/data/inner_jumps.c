#include <stdio.h>
int f(int k) {
  int n = 0;
  switch (k) {
  case 1:
    while (1) { n++; if (n == 4) break; }
    n = n + 100;
    for (int i = 0; ; i++) { if (i == 3) break; n++; }
    do { n++; break; } while (1);
    n = n + 1000;
    break;
  case 2:
    n = 7; }
  return n; }
int g(void) {
  int n = 0;
  for (int i = 0; i < 6; i++) {
    switch (i) {
    case 1: case 4: continue;
    case 3: break;
    default: n = n + i; }
    n = n + 10; }
  return n; }
int more(int n) { printf("%d?\n", n); return n < 4; }
int main(void) {
  int n = 0;
  printf("%d %d %d %d\n", f(1), f(2), f(3), g());
  do {
    n++;
    if (n % 2) continue;
    printf("%d\n", n);
  } while (more(n));
  do { n--; switch (n) { case 3: break; default: continue; } n = n * 10; } while (n > 28);
  return n; }
