int main(void){int *p;int n=0;int s=0;for(int i=0;i<n;i++)s=s+p[i];printf("%d\n",s);return 0;}
