/* Readings in order: eight bytes of port B, one a tick, are sorted by insertion and go to port D from the lowest to the highest. */
#include <xc.h>

#define COUNT  8
#define STROBE 0x01             /* port C: high while a reading stands at port D */

static unsigned char readings[COUNT];

static void sort(unsigned char *values, unsigned char count)
{
    unsigned char i, j, value;

    for (i = 1; i < count; i++) {
        value = values[i];
        for (j = i; j != 0 && values[j - 1] > value; j--)
            values[j] = values[j - 1];
        values[j] = value;
    }
}

void main(void)
{
    PORTC = 0;
    TRISC = 0xFE;
    TRISD = 0;
    OPTION_REG = 0x84;          /* no pull-ups; timer 0 from the clock, 1 to 32 */
    for (;;) {
        unsigned char i;

        for (i = 0; i < COUNT; i++) {
            while (!TMR0IF)
                ;
            TMR0IF = 0;
            readings[i] = PORTB;
        }
        sort(readings, COUNT);
        for (i = 0; i < COUNT; i++) {
            PORTD = readings[i];
            PORTC = STROBE;
            PORTC = 0;
        }
    }
}
