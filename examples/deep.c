/* main and nine calls below it: one address more than the chip's return stack holds. */
void f9(void) { PORTB = 9; }
void f8(void) { f9(); }
void f7(void) { f8(); }
void f6(void) { f7(); }
void f5(void) { f6(); }
void f4(void) { f5(); }
void f3(void) { f4(); }
void f2(void) { f3(); }
void f1(void) { f2(); }
void main(void) { f1(); }
