/* Eight buttons at port B: one that four ticks in a row see pressed turns its lamp at port D on or off; one that bounces doesn't. */
#include <xc.h>

void main(void)
{
    unsigned char steady = 0;   /* a bit for each button: pressed */
    unsigned char low = 0;      /* ticks that saw the other state, bit 0 of each button's count */
    unsigned char high = 0;     /* and bit 1 */
    unsigned char lamps = 0;

    PORTD = lamps;
    TRISD = 0;
    OPTION_REG = 0x04;          /* pull-ups on; timer 0 from the clock, 1 to 32 */
    for (;;) {
        unsigned char other, turned;

        while (!TMR0IF)
            ;
        TMR0IF = 0;
        other = ~PORTB ^ steady;
        high = (high ^ low) & other;
        low = ~low & other;
        turned = other & ~(high | low);
        steady ^= turned;
        lamps ^= turned & steady;
        PORTD = lamps;
    }
}
