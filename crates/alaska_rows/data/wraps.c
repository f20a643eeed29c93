_Atomic int a=2147483647;int main(void){atomic_fetch_add(&a,1);printf("%d\n",a);return 0;}
