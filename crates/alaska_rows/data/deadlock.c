mtx_t m;mtx_t n;int fa;int fb;
int a(void *v){mtx_lock(&m);fa=1;while(!fb);mtx_lock(&n);return 0;}
int b(void *v){mtx_lock(&n);fb=1;while(!fa);mtx_lock(&m);return 0;}
int main(void){thrd_t x;thrd_t y;thrd_create(&x,a,NULL);thrd_create(&y,b,NULL);
thrd_join(x,NULL);thrd_join(y,NULL);return 0;}
