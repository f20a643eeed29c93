// A function of one allocation, as both listings show it.
void churn(void){char *c=malloc(100);free(c);}int main(void){return 0;}
