int main(void){printf("hi\n");printf("yo\n");return 0;}
