// The lists around a call have the slot of a pointer that was looked at and is read later, and not behind its last access.
void f(void) {}
int main(void) {
  int *p = malloc(4);
  p[0] = 1;
  f();
  p[0] = 2;
  f();
  free(p);
  return 0;
}
