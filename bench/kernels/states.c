/* The lights of a crossing: a machine of five states, one step a tick, where the walkers' button at RB0 ends the drivers' green. */
#include <xc.h>

#define BUTTON   0x01           /* port B, low when pressed */

#define DRIVE    0              /* states */
#define SLOW     1
#define CLEARED  2
#define WALK     3
#define START    4

#define LONGEST  5              /* ticks */
#define SHORTEST 3

/* Drivers' red, amber and green from bit 0 of port D on, walkers' red and green from bit 4 on. */
static const unsigned char lamps[5] = { 0x14, 0x12, 0x11, 0x21, 0x13 };

static unsigned char waiting;   /* whether someone has pressed the button */

/* The state that follows one that has stood for so many ticks. */
static unsigned char following(unsigned char state, unsigned char stood)
{
    switch (state) {
    case DRIVE:
        if (waiting && stood >= SHORTEST)
            return SLOW;
        break;
    case SLOW:
        return CLEARED;
    case CLEARED:
        waiting = 0;
        return WALK;
    case WALK:
        if (stood == LONGEST)
            return START;
        break;
    default:
        return DRIVE;
    }
    return state;
}

void main(void)
{
    unsigned char state = DRIVE;
    unsigned char stood = 0;

    PORTD = lamps[DRIVE];
    TRISD = 0;
    OPTION_REG = 0x07;          /* pull-ups on; timer 0 from the clock, 1 to 256 */
    for (;;) {
        unsigned char now;

        while (!TMR0IF) {
            if (!(PORTB & BUTTON))
                waiting = 1;
        }
        TMR0IF = 0;
        if (stood != LONGEST)
            stood++;
        now = following(state, stood);
        if (now != state) {
            state = now;
            stood = 0;
            PORTD = lamps[state];
        }
    }
}
