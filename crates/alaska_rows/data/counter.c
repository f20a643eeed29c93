struct acc{mtx_t m;long n;};
int work(void *v){struct acc *a=v;
for(int i=0;i<1000;i++){mtx_lock(&a->m);a->n=a->n+1;mtx_unlock(&a->m);}return 0;}
int main(void){struct acc *a=malloc(sizeof(struct acc));
mtx_init(&a->m,mtx_plain);a->n=0;thrd_t x;thrd_t y;
thrd_create(&x,work,a);thrd_create(&y,work,a);
thrd_join(x,NULL);thrd_join(y,NULL);
printf("%ld\n",a->n);free(a);return 0;}
