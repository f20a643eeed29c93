int x;int f(void *v){x=1;return 0;}
int main(void){thrd_t t;thrd_create(&t,f,NULL);x=2;thrd_join(t,NULL);return 0;}
