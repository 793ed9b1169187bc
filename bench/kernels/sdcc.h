/*
 * The names of registers and bits that the programs here and in examples/ use, for SDCC's port pic14 (addresses: Microchip's data sheet
 * DS39582). SDCC's own library uses the first five. A register with named bits has a symbol of its own for these.
 */
__at(0x00) __sfr INDF;
__at(0x02) __sfr PCL;
__at(0x03) __sfr STATUS;
__at(0x04) __sfr FSR;
__at(0x0A) __sfr PCLATH;

__at(0x06) __sfr PORTB;
__at(0x07) __sfr PORTC;
__at(0x08) __sfr PORTD;
__at(0x0B) __sfr INTCON;
__at(0x0E) __sfr TMR1L;
__at(0x0F) __sfr TMR1H;
__at(0x10) __sfr T1CON;
__at(0x12) __sfr T2CON;
__at(0x18) __sfr RCSTA;
__at(0x19) __sfr TXREG;
__at(0x1A) __sfr RCREG;
__at(0x1E) __sfr ADRESH;
__at(0x1F) __sfr ADCON0;
__at(0x81) __sfr OPTION_REG;
__at(0x86) __sfr TRISB;
__at(0x87) __sfr TRISC;
__at(0x88) __sfr TRISD;
__at(0x92) __sfr PR2;
__at(0x98) __sfr TXSTA;
__at(0x99) __sfr SPBRG;
__at(0x9E) __sfr ADRESL;
__at(0x9F) __sfr ADCON1;

struct bits {
    unsigned char b0 : 1;
    unsigned char b1 : 1;
    unsigned char b2 : 1;
    unsigned char b3 : 1;
    unsigned char b4 : 1;
    unsigned char b5 : 1;
    unsigned char b6 : 1;
    unsigned char b7 : 1;
};

__at(0x05) volatile struct bits PORTA_bits;
__at(0x0B) volatile struct bits INTCON_bits;
__at(0x0C) volatile struct bits PIR1_bits;
__at(0x8C) volatile struct bits PIE1_bits;
__at(0x10) volatile struct bits T1CON_bits;

#define RA0    PORTA_bits.b0

#define INTF   INTCON_bits.b1
#define TMR0IF INTCON_bits.b2
#define INTE   INTCON_bits.b4
#define TMR0IE INTCON_bits.b5
#define PEIE   INTCON_bits.b6
#define GIE    INTCON_bits.b7

#define TMR1IF PIR1_bits.b0
#define TMR2IF PIR1_bits.b1
#define TXIF   PIR1_bits.b4
#define RCIF   PIR1_bits.b5

#define TMR2IE PIE1_bits.b1
#define TXIE   PIE1_bits.b4
#define RCIE   PIE1_bits.b5

#define TMR1ON T1CON_bits.b0
