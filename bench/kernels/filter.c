/* A moving average: the mean of the converter's last eight readings of ten bits, rounded, goes to ports C and D after each of them. */
#include <xc.h>

#define COUNT 8                 /* a power of two */
#define BUSY  0x04              /* in ADCON0 */

static unsigned int readings[COUNT];
static unsigned int sum;

static unsigned int converted(void)
{
    unsigned int reading;

    ADCON0 = 0x41 | BUSY;
    while (ADCON0 & BUSY)
        ;
    reading = (unsigned int)ADRESH << 8;
    reading |= ADRESL;
    return reading;
}

void main(void)
{
    unsigned char next = 0;     /* where the oldest reading stands */

    TRISC = 0;
    TRISD = 0;
    ADCON1 = 0x8E;              /* RA0 analog; the ten bits stand at the right */
    for (;;) {
        unsigned int mean;

        sum -= readings[next];
        readings[next] = converted();
        sum += readings[next];
        next = (next + 1) & (COUNT - 1);
        mean = (sum + COUNT / 2) / COUNT;
        PORTC = mean >> 8;
        PORTD = mean;
    }
}
