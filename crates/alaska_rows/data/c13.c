#include <stdio.h>
#include <threads.h>

mtx_t lock;
int money;

void add(int n) {
  mtx_lock(&lock);
  money = money + n;
  mtx_unlock(&lock);
}

int main(void) {
  mtx_init(&lock, mtx_plain);
  mtx_lock(&lock);
  if (money == 0)
    add(10);
  mtx_unlock(&lock);
  printf("%d\n", money);
  return 0;
}
