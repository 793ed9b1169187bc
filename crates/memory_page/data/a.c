void f(void){f();}
void main(void){f();}
