int a;int b;
int f(void *v){for(int i=0;i<1000;i++)a=i;return 0;}
int main(void){thrd_t t;thrd_create(&t,f,NULL);for(int i=0;i<1000;i++)b=i;thrd_join(t,NULL);printf("ok\n");return 0;}
