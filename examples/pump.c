/*
 * Pump control for a drainage sump.
 *
 * Two floats hang in the sump: FULL closes when the water is high, WET as long as the pump's inlet is
 * under water. The pump starts at FULL and stops when WET opens. A run that lasts too long means a
 * blocked outlet: then the pump stops, and the alarm stays on until someone presses RESET.
 *
 * Timer 0 counts the 50 Hz of the mains at its pin RA4, divided by 16, so it overflows every 82 s. The
 * handler only counts the overflows; main does the rest.
 */
#include <xc.h>

#define WET      0x01           /* inputs at port B, each 1 when closed */
#define FULL     0x02
#define RESET    0x04

#define PUMP     0x01           /* outputs at port C */
#define ALARM    0x02

enum { IDLE, PUMPING, BLOCKED };        /* states */

#define LONGEST  3              /* ticks that a run may last */

static const unsigned char outputs[3] = { 0, PUMP, ALARM };

static volatile unsigned char ticks;

void interrupt tick(void)
{
    if (TMR0IF) {
        TMR0IF = 0;
        ticks++;
    }
}

/* The state that follows, where the pump has been running for so many ticks. */
static unsigned char following(unsigned char state, unsigned char inputs, unsigned char running)
{
    switch (state) {
    case IDLE:
        return inputs & FULL ? PUMPING : IDLE;
    case PUMPING:
        if (!(inputs & WET))
            return IDLE;
        return running < LONGEST ? PUMPING : BLOCKED;
    default:
        return inputs & RESET ? IDLE : BLOCKED;
    }
}

void main(void)
{
    unsigned char state = IDLE;
    unsigned char began = 0;    /* the ticks at the last moment without a run */

    PORTC = outputs[IDLE];
    TRISC = 0xFC;
    OPTION_REG = 0xA3;          /* no pull-ups; timer 0 from RA4, 1 to 16 */
    TMR0IE = 1;
    GIE = 1;
    for (;;) {
        unsigned char now = ticks;

        if (state != PUMPING)
            began = now;
        state = following(state, PORTB, now - began);
        PORTC = outputs[state];
    }
}
