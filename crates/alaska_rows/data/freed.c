int f(void *v){int *p=v;int k=*p;return k;}
int g(void *v){free(v);return 0;}
int main(void){int *p=malloc(4);*p=7;thrd_t s;thrd_t t;thrd_create(&s,f,p);thrd_create(&t,g,p);thrd_join(s,NULL);thrd_join(t,NULL);return 0;}
