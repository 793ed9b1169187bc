/* A voltmeter: the converter's ten bits times a gain of 16 bits, which port B trims, give millivolts in 32 bits for ports C and D. */
#include <xc.h>

#define GAIN 40000U             /* 8 times the millivolts of 1,024 steps */
#define BUSY 0x04               /* in ADCON0 */

static unsigned int converted(void)
{
    unsigned int reading;

    ADCON0 = 0x41 | BUSY;
    while (ADCON0 & BUSY)
        ;
    reading = (unsigned int)ADRESH << 8;
    reading |= ADRESL;
    return reading;
}

/* Rounded. */
static unsigned int millivolts(unsigned int reading, unsigned int gain)
{
    return ((unsigned long)reading * gain + 4096) >> 13;
}

void main(void)
{
    TRISC = 0;
    TRISD = 0;
    ADCON1 = 0x8E;              /* RA0 analog; the ten bits stand at the right */
    for (;;) {
        unsigned int gain, shown;

        gain = GAIN + PORTB;
        shown = millivolts(converted(), gain);
        PORTC = shown >> 8;
        PORTD = shown;
    }
}
