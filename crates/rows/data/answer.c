int main(void){int *p=malloc(4);*p=41;*p=*p+1;printf("%d\n",*p);free(p);return 0;}
