void main(void){TRISB=0;PORTB=5;}
