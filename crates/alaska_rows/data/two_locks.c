int x;mtx_t m;mtx_t n;
int f(void *v){mtx_lock(&m);x=1;mtx_unlock(&m);return 0;}
int g(void *v){mtx_lock(&n);x=2;mtx_unlock(&n);return 0;}
int main(void){thrd_t s;thrd_t t;mtx_init(&m,mtx_plain);mtx_init(&n,mtx_plain);thrd_create(&s,f,NULL);thrd_create(&t,g,NULL);thrd_join(s,NULL);thrd_join(t,NULL);return 0;}
