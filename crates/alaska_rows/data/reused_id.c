int main(void){int *p=malloc(40);free(p);int *q=malloc(40);q[0]=5;int s=0;for(int i=0;i<2;i++)if(i>5)s=s+p[i];printf("%d\n",s+q[0]);free(q);return 0;}
