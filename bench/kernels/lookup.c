/* A thermometer: eight bits of a thermistor's divider become tenths of a degree, from a table by straight lines, on ports C and D. */
#include <xc.h>

#define BUSY 0x04               /* in ADCON0 */

/* Tenths of a degree Celsius at each 16th step of the converter. */
static const int tenths[17] = {
    1500, 1130, 900, 765, 666, 586, 517, 455, 397, 341, 286, 229, 168, 98, 9, -128, -400
};

static int temperature(unsigned char reading)
{
    unsigned char i = reading >> 4;
    unsigned char rest = reading & 0x0F;
    int low = tenths[i];

    return low + (((tenths[i + 1] - low) * rest) >> 4);
}

void main(void)
{
    TRISC = 0;
    TRISD = 0;
    ADCON1 = 0x0E;              /* RA0 analog; the upper eight bits stand in ADRESH */
    for (;;) {
        int shown;

        ADCON0 = 0x41 | BUSY;
        while (ADCON0 & BUSY)
            ;
        shown = temperature(ADRESH);
        PORTC = shown >> 8;
        PORTD = shown;
    }
}
