atomic_int a;
int f(void *v){a=1;return 0;}
int g(void *v){int y;memcpy(&y,&a,4);return y;}
int main(void){thrd_t s;thrd_t t;thrd_create(&s,f,NULL);thrd_create(&t,g,NULL);thrd_join(s,NULL);thrd_join(t,NULL);return 0;}
