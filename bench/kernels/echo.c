/* A serial line that answers: the handler sends each byte back, letters as capitals, and port D shows how many wait in its ring. */
#include <xc.h>

#define SIZE 16                 /* a power of two */

static volatile unsigned char ring[SIZE];
static volatile unsigned char head, tail;

void interrupt serve(void)
{
    unsigned char byte;

    if (RCIF) {
        byte = RCREG;
        RCIF = 0;
        if (byte >= 'a' && byte <= 'z')
            byte -= 'a' - 'A';
        ring[head] = byte;
        head = (head + 1) & (SIZE - 1);
        TXIE = 1;
    }
    if (TXIE && TXIF) {
        TXREG = ring[tail];
        TXIF = 0;
        tail = (tail + 1) & (SIZE - 1);
        if (tail == head)
            TXIE = 0;
    }
}

void main(void)
{
    TRISD = 0;
    SPBRG = 25;                 /* 9,600 bauds at 4 MHz */
    TXSTA = 0x24;
    RCSTA = 0x90;
    RCIE = 1;
    PEIE = 1;
    GIE = 1;
    for (;;)
        PORTD = (head - tail) & (SIZE - 1);
}
