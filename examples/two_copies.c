unsigned char add(unsigned char a)
{
    unsigned char b;
    b = a;
    return b + 1;
}

void interrupt h(void)
{
    PORTC = add(9);
    INTF = 0;
}

void main(void)
{
    INTCON = 0x90;
    PORTB = add(1);
}
