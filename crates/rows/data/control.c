// A loop that is left by its condition and by a break, with a branch in it, and a call behind it.
void f(void) {}
int main(void) {
  int n = 3;
  while (n) {
    if (n < 2) break;
    n = n - 1;
  }
  f();
  return n;
}
