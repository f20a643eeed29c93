int main(void){char *a=malloc(4096);char *b=malloc(64);free(a);char *c=malloc(64);char *d=malloc(4096);printf("%d\n",d!=NULL);return 0;}
