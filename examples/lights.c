/*
 * Running lights on eight lamps at port B.
 *
 * One lamp runs to and fro, then a few patterns come from a table, and then a level rises and falls by a quarter wave.
 * Each picture is shown for a while, which the delay loop counts in 16 bits. After two rounds the lamps go out.
 */
#include <xc.h>

#define LAMPS  8
#define ROUNDS 2

typedef struct picture { unsigned char lamps; unsigned int length; } Picture;

static const unsigned char patterns[6] = { 0x81, 0xC3, 0xE7, 0xFF, 0x18, 0x00 };

/* A quarter wave: 255 times the sine of 0, 15 .. 90 degrees. */
static const unsigned char wave[7] = { 0, 66, 128, 180, 221, 246, 255 };

static void show(Picture *p)
{
    volatile unsigned int left;

    PORTB = p->lamps;
    for (left = p->length; left; left--)
        ;
}

/* So many lamps light up as the level, from 0 to 255, is worth, rounded. */
static unsigned char bar(unsigned char level)
{
    unsigned char lit = (level * (unsigned int)LAMPS + 127) / 255;

    return (1 << lit) - 1;
}

static void run(Picture *p)
{
    signed char place;

    for (place = 0; place < LAMPS; place++) {
        p->lamps = 1 << place;
        show(p);
    }
    for (place -= 2; place >= 0; place--) {
        p->lamps = 1 << place;
        show(p);
    }
}

void main(void)
{
    Picture now;
    unsigned char round, i;

    TRISB = 0;
    now.length = 3;
    for (round = 0; round < ROUNDS; round++) {
        run(&now);
        for (i = 0; i < sizeof patterns; i++) {
            now.lamps = patterns[i];
            show(&now);
        }
        for (i = 0; i < sizeof wave; i++) {
            now.lamps = bar(wave[i]);
            show(&now);
        }
        while (i--) {
            now.lamps = ~bar(wave[i]);
            show(&now);
        }
    }
    PORTB = 0;
}
