void main(void){PORTB=5;}
