/*
 * Pulse counter of a water meter.
 *
 * The meter's reed contact pulls RB0/INT low once for each litre. The handler counts the pulses in an
 * unsigned long, whose four bytes aren't read at once: a pulse may come between two of them. So main
 * takes copies until two in a row agree, and never has to shut the interrupt off.
 *
 * Port D shows the last two digits of the litres, port C the hundreds, eight bits of them.
 */
#include <xc.h>

#define INSTALLED  65534UL      /* litres on the dial when the counter was put in */

static volatile unsigned long litres = INSTALLED;

void interrupt pulse(void)
{
    if (INTF) {
        INTF = 0;
        litres++;
    }
}

/* A copy whose bytes belong together. */
static unsigned long reading(void)
{
    unsigned long copy;

    do {
        copy = litres;
    } while (copy != litres);
    return copy;
}

/* Two decimal digits, tens above units. */
static unsigned char packed(unsigned char number)
{
    return number / 10 << 4 | number % 10;
}

void main(void)
{
    unsigned long shown = 0;

    TRISC = 0;
    TRISD = 0;
    OPTION_REG = 0x00;          /* pull-ups on, falling edge of RB0 */
    INTE = 1;
    GIE = 1;
    for (;;) {
        unsigned long now = reading();

        if (now != shown) {
            shown = now;
            PORTC = now / 100;
            PORTD = packed(now % 100);
        }
    }
}
