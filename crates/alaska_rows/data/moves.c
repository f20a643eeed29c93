void churn(void){char *c=malloc(100);free(c);}
int main(void){char *g=malloc(500);int *p=malloc(40);free(g);
for(int i=0;i<10;i++){p[i]=i*i;churn();}
int s=0;
for(int i=0;i<10;i++)s=s+p[i];
printf("%d\n",s);free(p);return 0;}
