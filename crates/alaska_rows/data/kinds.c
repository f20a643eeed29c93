typedef struct node node;
struct node { node *next; int v; };
enum kind { RED, GREEN = 5, BLUE };
int f(int k){switch(k){case RED:return 1;case GREEN:k=k+1;case BLUE:k=k*2;break;default:k=0;}return k;}
int main(void){int i=0;do{i++;if(i==2)continue;}while(i<3);
printf("%d %d %d %d %d\n",f(0),f(5),f(6),f(7),i);return sizeof(node);}
