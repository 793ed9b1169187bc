/*
 * A stair light, for either chip: it names only what the PIC16F84A has, too.
 *
 * A button pulls RB0/INT low, and the lamp hangs at RB1. A press lights it, and each further press begins its time anew. Timer 0 counts
 * the time: at 4 MHz and with a prescaler of 256 it overflows every 65.5 ms, so 229 overflows are 15 seconds.
 */
#include <xc.h>

#define LAMP      0x02          /* port B */
#define OVERFLOWS 229

static volatile unsigned char left;     /* how many overflows the lamp has left */

void interrupt tick(void)
{
    if (INTF) {
        INTF = 0;
        left = OVERFLOWS;
    }
    if (TMR0IF) {
        TMR0IF = 0;
        if (left)
            left--;
    }
}

void main(void)
{
    PORTB = 0;
    TRISB = 0x01;
    OPTION_REG = 0x07;          /* pull-ups of port B; INT at the falling edge; timer 0 by 256 */
    INTCON = 0xB0;              /* GIE, TMR0IE, INTE */
    for (;;)
        PORTB = left ? LAMP : 0;
}
