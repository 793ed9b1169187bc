/* Checksums of a serial line: after each eight bytes their CRC-16, of polynomial 1021h from FFFFh on, stands on ports B and D. */
#include <xc.h>

#define POLYNOMIAL 0x1021
#define FIRST      0xFFFF
#define LENGTH     8            /* bytes of a block */

static unsigned int following(unsigned int sum, unsigned char byte)
{
    unsigned char left;

    sum ^= (unsigned int)byte << 8;
    for (left = 8; left != 0; left--) {
        if (sum & 0x8000)
            sum = sum << 1 ^ POLYNOMIAL;
        else
            sum <<= 1;
    }
    return sum;
}

static unsigned char received(void)
{
    unsigned char byte;

    while (!RCIF)
        ;
    byte = RCREG;
    RCIF = 0;
    return byte;
}

void main(void)
{
    TRISB = 0;
    TRISD = 0;
    SPBRG = 25;                 /* 9,600 bauds at 4 MHz */
    TXSTA = 0x04;
    RCSTA = 0x90;
    for (;;) {
        unsigned int sum = FIRST;
        unsigned char i;

        for (i = 0; i < LENGTH; i++)
            sum = following(sum, received());
        PORTB = sum >> 8;
        PORTD = sum;
    }
}
