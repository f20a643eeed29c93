int a[2];int b[2];int main(void){printf("%d\n",a+2==b);return 0;}
