#include <stdio.h>
int left(int day) {
  int n = 0;
  switch (day) {
  case 3:
    n++;
  case 2:
    n++;
  case 1:
    n++;
    break;
  case 0:
    n = 100;
  }
  return n; }
int middle(int k) {
  int r = 0;
  switch (k) {
  case 1: r = 10; break;
  default: r = r + 1;
  case 2: r = r + 20; break;
  case 3: r = 30; }
  return r; }
int before(int k) {
  switch (k) { k = 50; case 1: k = k + 1; }
  return k; }
int main(void) {
  printf("%d %d %d %d %d\n", left(3), left(2), left(1), left(0), left(9));
  printf("%d %d %d %d\n", middle(1), middle(2), middle(3), middle(7));
  printf("%d %d\n", before(1), before(2));
  return 0; }
