int main(void){char a[100000];a[0]=1;return 0;}
