#include <stdio.h>
#include <threads.h>

int work(void *v) {
  return 7;
}

int main(void) {
  thrd_t t;
  int result;
  thrd_create(&t, work, NULL);
  thrd_join(t, &result);
  printf("%d\n", result);
  thrd_join(t, &result);
  return 0;
}
