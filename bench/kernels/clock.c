/* A clock: the handler counts the ticks of timer 2, and ports B, C and D show hours, minutes and seconds, two decimal digits each. */
#include <xc.h>

#define TICKS 250               /* in a second */

struct time { unsigned char hours, minutes, seconds; };

static volatile struct time now;
static volatile unsigned char ticks;

void interrupt tick(void)
{
    if (TMR2IF) {
        TMR2IF = 0;
        if (++ticks != TICKS)
            return;
        ticks = 0;
        if (++now.seconds != 60)
            return;
        now.seconds = 0;
        if (++now.minutes != 60)
            return;
        now.minutes = 0;
        if (++now.hours == 24)
            now.hours = 0;
    }
}

/* Two decimal digits, tens above units. */
static unsigned char packed(unsigned char number)
{
    unsigned char tens = 0;

    while (number >= 10) {
        number -= 10;
        tens += 0x10;
    }
    return tens | number;
}

void main(void)
{
    unsigned char shown = 60;

    TRISB = 0;
    TRISC = 0;
    TRISD = 0;
    PR2 = 249;
    T2CON = 0x06;               /* 1 to 16: 250 Hz at 4 MHz */
    TMR2IE = 1;
    PEIE = 1;
    GIE = 1;
    for (;;) {
        unsigned char seconds = now.seconds;

        if (seconds != shown) {
            shown = seconds;
            PORTD = packed(seconds);
            PORTC = packed(now.minutes);
            PORTB = packed(now.hours);
        }
    }
}
