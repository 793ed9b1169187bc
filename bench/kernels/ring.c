/* The past of a port: a ring keeps the last sixteen readings of port B, one a tick, and gives them to port D when RA0 is high. */
#include <xc.h>

#define SIZE   16               /* a power of two */
#define STROBE 0x01             /* port C: high while a reading stands at port D */

static unsigned char ring[SIZE];
static unsigned char next;      /* where the next reading goes, and the oldest one stands */

static void put(unsigned char reading)
{
    ring[next] = reading;
    next = (next + 1) & (SIZE - 1);
}

static void give(void)
{
    unsigned char left;
    unsigned char place = next;

    for (left = SIZE; left != 0; left--) {
        PORTD = ring[place];
        PORTC = STROBE;
        PORTC = 0;
        place = (place + 1) & (SIZE - 1);
    }
}

void main(void)
{
    PORTC = 0;
    TRISC = 0xFE;
    TRISD = 0;
    ADCON1 = 0x06;              /* all pins digital */
    OPTION_REG = 0x84;          /* no pull-ups; timer 0 from the clock, 1 to 32 */
    for (;;) {
        while (!TMR0IF)
            ;
        TMR0IF = 0;
        put(PORTB);
        if (RA0)
            give();
    }
}
