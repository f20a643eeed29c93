_Atomic int a=5;int main(void){int e=4;int r=atomic_compare_exchange_strong(&a,&e,9);printf("%d %d %d\n",r,e,a);r=atomic_compare_exchange_strong(&a,&e,9);printf("%d %d %d\n",r,e,a);return 0;}
