/* Speed of a shaft: timer 1 counts the microseconds of a turn, and ports C and D show the turns a minute, two decimal digits each. */
#include <xc.h>

#define MINUTE   60000000UL     /* microseconds */
#define SHORTEST 6001           /* of a turn: 9,998 turns a minute */

/* Two decimal digits, tens above units. */
static unsigned char packed(unsigned char number)
{
    return number / 10 << 4 | number % 10;
}

void main(void)
{
    TRISC = 0;
    TRISD = 0;
    T1CON = 0x01;               /* a quarter of the clock: 1 MHz at 4 MHz */
    for (;;) {
        unsigned int turn, speed;

        while (!INTF)
            ;
        INTF = 0;
        TMR1ON = 0;
        turn = (unsigned int)TMR1H << 8;
        turn |= TMR1L;
        TMR1H = 0;
        TMR1L = 0;
        TMR1ON = 1;
        speed = 0;
        if (TMR1IF)
            TMR1IF = 0;
        else if (turn >= SHORTEST)
            speed = MINUTE / turn;
        PORTC = packed(speed / 100);
        PORTD = packed(speed % 100);
    }
}
