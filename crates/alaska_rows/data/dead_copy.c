int main(void){int *p=malloc(4);free(p);int *q=p;printf("ok\n");return 0;}
