char *p[256];
int main(void){
for(int i=0;i<256;i++)p[i]=malloc(16);
for(int i=0;i<256;i=i+2)free(p[i]);
char *q=malloc(2048);
char *r=malloc(16);
printf("%d %d\n",q!=NULL,r!=NULL);
return 0;}
