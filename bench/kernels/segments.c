/* Four digits of seven segments: the handler lights the next one at each tick, and main counts the pulses at RB0 in decimal. */
#include <xc.h>

#define DIGITS 4

/* Segments a to g from bit 0 on. */
static const unsigned char segments[10] = { 0x3F, 0x06, 0x5B, 0x4F, 0x66, 0x6D, 0x7D, 0x07, 0x7F, 0x6F };

/* What lights each digit at port C, units first. */
static const unsigned char pins[DIGITS] = { 0x01, 0x02, 0x04, 0x08 };

static volatile unsigned char digits[DIGITS];

void interrupt refresh(void)
{
    static unsigned char place;

    if (TMR0IF) {
        TMR0IF = 0;
        PORTC = 0;
        PORTD = segments[digits[place]];
        PORTC = pins[place];
        place = (place + 1) & (DIGITS - 1);
    }
}

void main(void)
{
    PORTC = 0;
    TRISC = 0xF0;
    TRISD = 0;
    OPTION_REG = 0x03;          /* pull-ups on; timer 0 from the clock, 1 to 16 */
    TMR0IE = 1;
    GIE = 1;
    for (;;) {
        unsigned char i;

        while (!INTF)
            ;
        INTF = 0;
        for (i = 0; i < DIGITS; i++) {
            if (digits[i] != 9) {
                digits[i]++;
                break;
            }
            digits[i] = 0;
        }
    }
}
