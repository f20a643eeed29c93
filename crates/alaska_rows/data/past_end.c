int main(void){char *p=malloc(16);p[16]=1;printf("ok\n");return 0;}
