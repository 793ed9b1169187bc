/*
 * A lamp that blinks.
 *
 * The lamp hangs at RB0. All pins are inputs after a reset, so TRISB comes first of all; the latch is cleared before that, so that
 * the pin doesn't flash. The port is kept in a variable: a read of PORTB gives the levels of the pins, and not what was written.
 */
#include <xc.h>

#define LAMP  0x01              /* port B */

/* Counts down. How long that takes isn't said: it depends on the code that is made of it, and on the clock. */
static void wait(unsigned int times)
{
    volatile unsigned int left;

    for (left = times; left != 0; left--)
        ;
}

void main(void)
{
    unsigned char lamps = 0;

    PORTB = lamps;
    TRISB = 0;
    for (;;) {
        lamps ^= LAMP;
        PORTB = lamps;
        wait(5000);
    }
}
