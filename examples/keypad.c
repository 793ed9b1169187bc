/*
 * Keypad of four rows and three columns.
 *
 * RB0 to RB2 drive the columns, one of them low at a time. RB4 to RB7 read the rows, which the port's own pull-ups hold high: a
 * pressed key pulls its row low while its column is low. Timer 0 overflows from time to time; the handler notes that, and main
 * scans once each time. Contacts bounce, so a key counts when three scans in a row see it and no other.
 *
 * Port D shows the number of the last key: 0 to 9, 10 for the star, 11 for the hash.
 */
#include <xc.h>

#define ROWS    0xF0            /* port B */
#define COLUMNS 3
#define NO_ROW  4
#define NO_KEY  0xFF
#define STEADY  3               /* scans */

/* What port B drives for each column. */
static const unsigned char low[COLUMNS] = { 0x06, 0x05, 0x03 };

static const unsigned char keys[12] = { 1, 2, 3, 4, 5, 6, 7, 8, 9, 10, 0, 11 };

static volatile unsigned char due;

void interrupt tick(void)
{
    if (TMR0IF) {
        TMR0IF = 0;
        due = 1;
    }
}

/* The row that is low, where it is just one. */
static unsigned char row_of(unsigned char rows)
{
    switch (rows) {
    case 0xE0:
        return 0;
    case 0xD0:
        return 1;
    case 0xB0:
        return 2;
    case 0x70:
        return 3;
    default:
        return NO_ROW;
    }
}

/* The key that is pressed; none where several are. */
static unsigned char scan(void)
{
    unsigned char column, rows, row;
    unsigned char found = NO_KEY;

    for (column = 0; column < COLUMNS; column++) {
        PORTB = low[column];
        rows = PORTB & ROWS;
        if (rows != ROWS) {
            row = row_of(rows);
            if (row == NO_ROW || found != NO_KEY)
                return NO_KEY;
            found = keys[COLUMNS * row + column];
        }
    }
    return found;
}

void main(void)
{
    unsigned char last = NO_KEY;
    unsigned char seen = 0;     /* scans in a row that saw it */

    PORTD = 0;
    TRISD = 0;
    TRISB = ROWS;
    OPTION_REG = 0x05;          /* pull-ups on; timer 0 from the clock, 1 to 64 */
    TMR0IE = 1;
    GIE = 1;
    for (;;) {
        unsigned char now;

        while (!due)
            ;
        due = 0;
        now = scan();
        if (now != last) {
            last = now;
            seen = 0;
        }
        if (seen < STEADY) {
            seen++;
            if (seen == STEADY && now != NO_KEY)
                PORTD = now;
        }
    }
}
