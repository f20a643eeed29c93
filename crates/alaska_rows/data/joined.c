int x;int f(void *v){x=1;return 0;}
int main(void){thrd_t t;thrd_create(&t,f,NULL);thrd_join(t,NULL);x=x+1;printf("%d\n",x);return 0;}
