int x;atomic_int flag;
int f(void *v){x=1;atomic_store(&flag,1);return 0;}
int g(void *v){while(!atomic_load(&flag));printf("%d\n",x);return 0;}
int main(void){thrd_t s;thrd_t t;thrd_create(&s,f,NULL);thrd_create(&t,g,NULL);thrd_join(s,NULL);thrd_join(t,NULL);return 0;}
