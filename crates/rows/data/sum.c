int main(void){int a=6;int b=7;printf("%d\n",a*b);return a;}
