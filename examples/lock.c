/*
 * Door lock with a code.
 *
 * A keypad encoder (MM74C922) puts the number of the pressed key on RD0 to RD3 and raises RD4 as long
 * as it is held. RC0 drives the solenoid of the bolt, RC1 a buzzer.
 *
 * Keys are collected until there are as many as the code has. The right ones draw the bolt back for a while, wrong
 * ones sound the buzzer, and after the third time in a row the lock takes no key until the next power-up.
 */
#include <xc.h>

#define KEY       0x0F          /* port D */
#define PRESSED   0x10

#define CLOSED    0x00          /* port C */
#define BOLT      0x01
#define BUZZER    0x02

#define LENGTH    4
#define TRIES     3

static const unsigned char code[LENGTH] = { 2, 7, 1, 8 };

static unsigned char failed;    /* wrong codes in a row */

/* Waits until the last key is released and the next one is pressed, and answers it. */
static unsigned char key(void)
{
    unsigned char port;

    while (PORTD & PRESSED)
        ;
    do {
        port = PORTD;
    } while (!(port & PRESSED));
    return port & KEY;
}

/* Whether the next keys are the code. All of them are taken, so that the wrong place isn't told. */
static unsigned char is_code(void)
{
    unsigned char i;
    unsigned char wrong = 0;

    for (i = 0; i < LENGTH; i++)
        wrong |= key() ^ code[i];
    return wrong == 0;
}

/* Switches an output on for a while. */
static void drive(unsigned char output, unsigned int times)
{
    volatile unsigned int left;

    PORTC = output;
    for (left = times; left != 0; left--)
        ;
    PORTC = CLOSED;
}

void main(void)
{
    PORTC = CLOSED;
    TRISC = 0xFC;
    while (failed < TRIES) {
        if (is_code()) {
            failed = 0;
            drive(BOLT, 5000);
        } else {
            failed++;
            drive(BUZZER, 1000);
        }
    }
    PORTC = BUZZER;
}
