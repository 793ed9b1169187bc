/*
 * Receiver of a serial line.
 *
 * The handler takes each byte from the receiver and puts it into a ring. Main takes them out again: it reads decimal numbers,
 * each ended by a carriage return, and shows them on port D. `head` is written by the handler alone and `tail` by main alone, and
 * each is one byte, so neither side ever sees half of a change. A byte that finds the ring full is dropped and counted.
 *
 * On the chip RCIF can't be written: it is set as long as a byte waits, and reading RCREG clears it. The write is for a model that
 * keeps the flag until it is written, and does nothing on the chip.
 */
#include <xc.h>

#define OVERRUN  0x02           /* in RCSTA */
#define ENABLED  0x90           /* SPEN and CREN in RCSTA: pins and receiver on */
#define STOPPED  0x80           /* CREN off, which clears an overrun */

#define SIZE     8              /* a power of two */
#define RETURN   0x0D

static volatile unsigned char ring[SIZE];
static volatile unsigned char head, tail;
static volatile unsigned char lost;

void interrupt receive(void)
{
    unsigned char byte, next;

    if (RCIF) {
        if (RCSTA & OVERRUN) {
            RCSTA = STOPPED;
            RCSTA = ENABLED;
        }
        byte = RCREG;
        RCIF = 0;
        next = (head + 1) & (SIZE - 1);
        if (next == tail) {
            lost++;
        } else {
            ring[head] = byte;
            head = next;
        }
    }
}

/* Waits for a byte. */
static unsigned char taken(void)
{
    unsigned char byte;

    while (head == tail)
        ;
    byte = ring[tail];
    tail = (tail + 1) & (SIZE - 1);
    return byte;
}

void main(void)
{
    unsigned char number = 0;

    PORTD = 0;
    TRISD = 0;
    SPBRG = 25;                 /* 9,600 bauds at 4 MHz */
    TXSTA = 0x04;               /* BRGH */
    RCSTA = ENABLED;
    RCIE = 1;
    PEIE = 1;
    GIE = 1;
    for (;;) {
        unsigned char byte = taken();

        if (byte >= '0' && byte <= '9') {
            number = 10 * number + (byte - '0');
        } else if (byte == RETURN) {
            PORTD = number;
            number = 0;
        }
    }
}
