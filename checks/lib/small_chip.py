"""A model of the PIC16F84A, written from its data sheet (DS35007: memory organization, instruction set, interrupts) and from the choices
that docs/chip.md names, and from nothing else of this project: it shares no code and no table with the compiler or the definitions."""

DEVICES = {0x01: 'TMR0', 0x05: 'PORTA', 0x06: 'PORTB', 0x81: 'OPTION_REG', 0x85: 'TRISA', 0x86: 'TRISB'}
FLAGS = {'TMR0IF': 4, 'INTF': 2, 'RBIF': 1}
GENERAL = range(0x0C, 0x50)


class Stop(Exception):
    """The word whose turn it is is SLEEP or no instruction's."""


class SmallChip:
    """The chip behind a reset, with `image` as words by address and `objects` as name, address and size. `lines` are the printed events."""

    def __init__(self, image, main, halt, objects, inputs):
        self.image, self.main, self.halt, self.objects, self.inputs = image, main, halt, objects, list(inputs)
        self.pc = self.w = self.fsr = self.pclath = self.intcon = self.bank = 0
        self.z = self.dc = self.c = 0
        self.ram, self.stack, self.lines = {a: 0 for a in GENERAL}, [0] * 8, []
        self.met = self.ended = False
        self.look()

    def look(self):
        """What it means that the program counter stands here."""
        if not self.met:
            self.met = self.pc == self.main
        elif self.pc == self.halt and not self.ended:
            self.ended = True
            self.lines.append('End')

    # ---- data memory
    def place(self, f):
        """The bank and the low seven bits that an operand reaches, or None."""
        if f:
            return self.bank & 1, f
        return (self.fsr >> 7, self.fsr & 0x7F) if self.fsr & 0x7F else None

    def told(self, kind, place, value):
        if not self.met:
            return
        bank, low = place
        name = 'INTCON' if low == 0x0B else DEVICES.get(bank << 7 | low)
        if low in GENERAL:
            # an object's byte; from 0Ch to 1Fh no object of a program stands
            name = next((f'{n}.{low - a}' for n, a, size in self.objects if low >= 0x20 and a <= low < a + size), None)
        if name:
            self.lines.append(f'{kind} {name} {value:02X}')

    def read(self, f):
        place = self.place(f)
        if place is None:
            return 0
        bank, low = place
        if low in GENERAL:
            value = self.ram[low]
        elif low == 0x02:
            value = (self.pc + 1) & 0xFF
        elif low == 0x03:
            value = self.bank << 5 | 0x18 | self.z << 2 | self.dc << 1 | self.c
        elif low in (0x04, 0x0A, 0x0B):
            value = {0x04: self.fsr, 0x0A: self.pclath, 0x0B: self.intcon}[low]
        elif bank << 7 | low in DEVICES:
            value = self.inputs.pop(0) if self.inputs else 0
        else:
            value = 0
        self.told('R', place, value)
        return value

    def write(self, f, value, logic):
        """Where `logic` has flags that the instruction sets by its own logic, STATUS takes bits 7 to 5 alone."""
        place = self.place(f)
        if place is None:
            return
        bank, low = place
        if low in GENERAL:
            self.ram[low] = value
        elif low == 0x02:
            self.next = self.pclath << 8 | value
        elif low == 0x03:
            self.bank = value >> 5
            if not logic:
                self.z, self.dc, self.c = value >> 2 & 1, value >> 1 & 1, value & 1
        elif low == 0x04:
            self.fsr = value
        elif low == 0x0A:
            self.pclath = value & 0x1F
        elif low == 0x0B:
            self.intcon = value
        self.told('W', place, value)

    # ---- the return stack, which is circular
    def push(self, at):
        self.stack = [at] + self.stack[:7]

    def pop(self):
        top = self.stack[0]
        self.stack = self.stack[1:] + [top]
        return top

    # ---- instructions
    def step(self, arriving=()):
        for flag in arriving:
            self.intcon |= FLAGS.get(flag, 0)
        i = self.intcon
        if i & 0x80 and i >> 3 & i & 7:
            self.intcon &= 0x7F
            self.push(self.pc)
            self.pc = 4
        word = self.image.get(self.pc % 1024, 0x3FFF)
        self.next = (self.pc + 1) % 8192
        self.execute(word)
        self.pc = self.next
        self.look()

    def execute(self, word):
        top, f, d = word >> 12, word & 0x7F, word >> 7 & 1
        if top == 0:
            self.byte_row(word >> 8, word, f, d)
        elif top == 1:
            self.bit_row(word >> 10 & 3, word >> 7 & 7, f)
        elif top == 2:
            if not word & 0x800:
                self.push((self.pc + 1) % 8192)
            self.next = (self.pclath & 0x18) << 8 | word & 0x7FF
        else:
            self.literal_row(word >> 8 & 15, word & 0xFF)

    def byte_row(self, op, word, f, d):
        if op == 0:
            self.control_row(word, f, d)
        elif op == 1:
            if d:
                self.write(f, 0, {'z'})
            else:
                self.w = 0
            self.z = 1
        else:
            self.change_row(op, f, d)

    def control_row(self, word, f, d):
        if d:
            self.write(f, self.w, ())
        elif word in (0x08, 0x09):
            self.next = self.pop()
            if word == 0x09:
                self.intcon |= 0x80
        elif word not in (0x00, 0x20, 0x40, 0x60, 0x64):
            raise Stop

    def change_row(self, op, f, d):
        x, w, flags = self.read(f), self.w, {}
        if op == 2:
            r = x - w & 0xFF
            flags = {'c': x >= w, 'dc': (x & 15) >= (w & 15), 'z': r == 0}
        elif op == 7:
            r = x + w & 0xFF
            flags = {'c': x + w > 255, 'dc': (x & 15) + (w & 15) > 15, 'z': r == 0}
        elif op == 12:
            r, flags = x >> 1 | self.c << 7, {'c': x & 1}
        elif op == 13:
            r, flags = (x << 1 | self.c) & 0xFF, {'c': x >> 7}
        else:
            r = {3: x - 1, 4: w | x, 5: w & x, 6: w ^ x, 8: x, 9: ~x, 10: x + 1, 11: x - 1, 14: x >> 4 | x << 4, 15: x + 1}[op] & 0xFF
            if op not in (11, 14, 15):
                flags = {'z': r == 0}
            elif op != 14 and r == 0:
                self.next = (self.pc + 2) % 8192
        if d:
            self.write(f, r, flags)
        else:
            self.w = r
        for name, value in flags.items():
            setattr(self, name, int(value))

    def bit_row(self, op, b, f):
        x = self.read(f)
        if op < 2:
            self.write(f, x & ~(1 << b) if op == 0 else x | 1 << b, ())
        elif (x >> b & 1) == op - 2:
            self.next = (self.pc + 2) % 8192

    def literal_row(self, op, k):
        w = self.w
        if op < 4:
            self.w = k
        elif op < 8:
            self.w, self.next = k, self.pop()
        elif op in (8, 9, 10):
            self.w = {8: w | k, 9: w & k, 10: w ^ k}[op]
            self.z = int(self.w == 0)
        elif op >= 12:
            x = k + w if op >= 14 else k - w
            low = (k & 15) + (w & 15) > 15 if op >= 14 else (k & 15) >= (w & 15)
            self.w, self.c, self.dc = x & 0xFF, int(x > 255 if op >= 14 else x >= 0), int(low)
            self.z = int(self.w == 0)
        else:
            raise Stop
