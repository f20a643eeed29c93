_Atomic long n;
int work(void *v){for(int i=0;i<1000;i++)atomic_fetch_add(&n,1);return 0;}
int main(void){thrd_t x;thrd_t y;
thrd_create(&x,work,NULL);thrd_create(&y,work,NULL);
thrd_join(x,NULL);thrd_join(y,NULL);
printf("%ld\n",n);return 0;}
