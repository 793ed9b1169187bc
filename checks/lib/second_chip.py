"""Random images on the second chip: what the definitions of chip_84a say of each step, run by the interpreter of the checks, what a model
does that was written apart from them (small_chip.py), and what `picc sim84` prints. And programs that both chips take, on both of them.
`second_chip.py PICC NAME [COUNT] [SEED]`; PICC is `-` for none."""
import os
import random
import re
import subprocess
import sys
import tempfile

import programs
from interpreter import definition
from library import Record
from small_chip import DEVICES, FLAGS, SmallChip, Stop

CHIP, WORLD = 'Rattle.chip_84a.specs.', 'Rattle.pic_world.specs.'
STEPS = 250
NAMES = {**DEVICES, 0x0B: 'INTCON'}
# PIR1's flags arrive at this chip too, and do nothing
ARRIVING = (*FLAGS, 'TMR1IF', 'RCIF')
# as the definitions name them
VARIANTS = {flag: flag.capitalize() for flag in ARRIVING}
# where operands lead, by how often
OPERANDS = [0] * 5 + [1, 2, 3, 3, 3, 4, 4, 4, 5, 5, 6, 6, 7, 0x0A, 0x0B, 0x0B] + list(range(0x0C, 0x24)) + [0x4E, 0x4F, 0x50, 0x70, 0x7F]


def word_of(rng):
    kind = rng.randrange(20)
    f = rng.choice(OPERANDS) if rng.randrange(6) else rng.randrange(128)
    if kind < 9:
        return rng.randrange(2, 16) << 8 | rng.randrange(2) << 7 | f
    if kind < 11:
        return 0x80 | f if rng.randrange(4) else 0x100 | rng.randrange(2) << 7 | f
    if kind < 14:
        return 0x1000 | rng.randrange(1 << 5) << 7 | f
    if kind < 16:
        return 0x2000 | rng.randrange(2) << 11 | rng.randrange(64)
    if kind < 19:
        return 0x3000 | rng.randrange(16) << 8 | rng.choice((rng.randrange(256), 0x90, 0xB8, 0xF8, rng.randrange(0x0C, 0x50), rng.randrange(0x8C, 0xD0)))
    return rng.choice((0, 8, 9, 9, 0x60, 0x63, 0x64, rng.randrange(1 << 14)))


def case_of(rng):
    """An image, main and halt, objects, input bytes, and arrivals in order."""
    image = {at: word_of(rng) for at in range(64)}
    image.update({rng.randrange(1024): word_of(rng) for _ in range(8)})
    # a word above the chip's memory, which is never met
    image[1024 + rng.randrange(64)] = 0x0063
    objects, at = [], rng.randrange(0x0C, 0x30)
    for n in range(rng.randrange(4)):
        size = rng.randrange(1, 12)
        if at + size <= 0x50:
            objects.append((f'v{n}', at, size))
        at += size + rng.randrange(4)
    times = sorted(rng.randrange(STEPS) for _ in range(rng.randrange(6)))
    return image, rng.randrange(12), rng.randrange(64), objects, [rng.randrange(256) for _ in range(rng.randrange(8))], [(t, rng.choice(ARRIVING)) for t in times]


def by_model(image, main, halt, objects, inputs, arrivals):
    """The printed lines, the status, and the state behind each step."""
    chip, states = SmallChip(image, main, halt, objects, inputs), []
    for t in range(STEPS):
        try:
            chip.step([flag for at, flag in arrivals if at == t])
        except Stop:
            return chip.lines + [f'unmodelled {chip.pc:04X}'], 6, states
        states.append((chip.pc, chip.w, chip.fsr, chip.bank, chip.z, chip.dc, chip.c, chip.pclath, chip.intcon, tuple(chip.ram.values()), tuple(chip.stack)))
    return chip.lines, 0, states


def line_of(event, objects):
    if event == ('End',):
        return 'End'
    kind, cell, value = event
    name = NAMES[cell[1]] if cell[0] == 'Device' else f'{objects[cell[1]][0]}.{cell[2]}'
    return f'{kind[0]} {name} {value:02X}'


def by_definitions(image, main, halt, objects, inputs, arrivals):
    """The same by the definitions."""
    words = tuple(image.get(at, 0x3FFF) for at in range(8192))
    ranges = tuple(Record(constant=False, address=a, size=size) for _, a, size in objects)
    watch = Record(main=main, halt=halt, ranges=ranges)
    start = Record(w=0, fsr=0, flags=0, ram=(0,) * 68)
    listed = tuple(Record(t=t, flag=(VARIANTS[flag],)) for t, flag in arrivals)
    moment = definition(CHIP + 'Run', 'first_moment')(Record(image=words, watch=watch, start=start, inputs=tuple(inputs), arrivals=listed))
    next_moment, arriving = definition(CHIP + 'Run', 'next_moment'), definition(WORLD + 'Arrivals', 'arriving')
    states = []
    for t in range(STEPS):
        before = moment
        moment = next_moment(words, tuple(inputs), watch, arriving(listed, t), moment)
        if moment.stopped:
            at = definition(CHIP + 'Machine', 'begun')(arriving(listed, t), before.state).pc
            return [line_of(e, objects) for e in moment.trace] + [f'unmodelled {at:04X}'], 6, states
        s = moment.state
        states.append((s.pc, s.w, s.fsr, s.bank, s.z, s.dc, s.c, s.pclath, s.intcon, tuple(s.ram)[:68], tuple(s.stack)))
    return [line_of(e, objects) for e in moment.trace], 0, states


def hex_of(image):
    """A HEX file of these words, one a record (Intel, Hexadecimal Object File Format Specification); what isn't given is erased."""
    records = [[2, 2 * at >> 8, 2 * at & 0xFF, 0, word & 0xFF, word >> 8] for at, word in sorted(image.items())]
    return ''.join(f':{bytes(record + [-sum(record) & 0xFF]).hex().upper()}\n' for record in records) + ':00000001FF\n'


def by_picc(picc, folder, image, main, halt, objects, inputs, arrivals):
    path = [os.path.join(folder, name) for name in ('a.hex', 'a.map', 'a.s')]
    statics = ''.join(f'static {name} {a:04X} {size}\n' for name, a, size in objects)
    script = ''.join(f'input {byte:02X}\n' for byte in inputs) + ''.join(f'at {t} {flag}\n' for t, flag in arrivals)
    for name, text in zip(path, (hex_of(image), f'picc map 1\nmain {main:04X}\nhalt {halt:04X}\n{statics}end\n', script)):
        with open(name, 'w', encoding='ascii') as file:
            file.write(text)
    ran = subprocess.run((picc, 'sim84', *path, str(STEPS)), stdout=subprocess.PIPE, timeout=120)
    return ran.stdout.decode('latin-1').splitlines(), ran.returncode


def differences(case, picc, folder):
    """What differs, in words; and how many steps and lines there were."""
    model, found = by_model(*case), by_definitions(*case)
    wrong = []
    if model != found:
        at = next((k for k, (a, b) in enumerate(zip(model[2], found[2])) if a != b), min(len(model[2]), len(found[2])))
        wrong.append(f'definitions and model differ at step {at}: {model[2][at:at + 1]} {found[2][at:at + 1]}, {model[:2]} {found[:2]}')
    if picc != '-':
        got = by_picc(picc, folder, *case)
        if got != model[:2]:
            wrong.append(f'picc prints {got}, wanted {model[:2]}')
    return wrong, len(model[2]), len(model[0])


# ---- both chips beside each other
def random_text(rng):
    """A program that names registers which both chips have."""
    text = programs.program(rng)
    for other in ('PORTC', 'PORTD'):
        text = text.replace(other, 'PORTA')
    for other in ('RC', 'RD'):
        text = re.sub(r'\b%s([0-7])\b' % other, r'RA\1', text)
    return text


def ran(picc, folder, *words):
    done = subprocess.run((picc, *words), cwd=folder, stdout=subprocess.PIPE, timeout=120)
    return done.returncode, done.stdout.decode('latin-1')


def beside(picc, folder, text, rng):
    """Whether both chips take the program, and then the lines of each, under the same input bytes and arrivals."""
    script = ''.join(f'input {rng.randrange(256):02X}\n' for _ in range(20)) + ''.join(f'at {t} {rng.choice(tuple(FLAGS))}\n' for t in sorted(rng.randrange(4000) for _ in range(12)))
    for name, content in (('a.c', text), ('a.s', script)):
        with open(os.path.join(folder, name), 'w', encoding='ascii') as file:
            file.write(content)
    if ran(picc, folder, 'build84', 'a.c', 'b.hex', 'b.map')[0] or ran(picc, folder, 'build', 'a.c', 'a.hex', 'a.map')[0]:
        return None
    return ran(picc, folder, 'sim', 'a.hex', 'a.map', 'a.s', '5000'), ran(picc, folder, 'sim84', 'b.hex', 'b.map', 'a.s', '5000')


def both_chips(picc, name, folder, count, seed):
    """Whether some programs differ, or too few were taken."""
    top = os.path.join(os.path.dirname(os.path.abspath(__file__)), '..', '..', 'examples')
    texts = [open(os.path.join(top, f'{example}.c'), encoding='ascii').read() for example in ('pins', 'blink', 'stairs')]
    taken, lines, status = 0, 0, 0
    for k in range(len(texts) + count):
        rng = random.Random(f'both {seed} {k}')
        both = beside(picc, folder, texts[k] if k < len(texts) else random_text(rng), rng)
        if both is None and k < len(texts):
            print(f'{name}: example {k} is refused')
            status = 1
        if both is not None:
            taken, lines = taken + 1, lines + both[0][1].count('\n')
            if both[0] != both[1]:
                print(f'{name}: program {k} of seed {seed}: the first chip {both[0]}, the second {both[1]}')
                status = 1
    print(f'{name}: {taken} programs on both chips, {lines} lines: {"0 differ" if not status else "some differ"}')
    return status


def main():
    picc, name = sys.argv[1:3]
    count, seed = (int(word) for word in (sys.argv[3:] + ['120', '1'][len(sys.argv) - 3:]))
    status, steps, lines, stopped = 0, 0, 0, 0
    with tempfile.TemporaryDirectory() as folder:
        for k in range(count):
            case = case_of(random.Random(f'{seed} {k}'))
            wrong, took, told = differences(case, picc, folder)
            steps, lines, stopped = steps + took, lines + told, stopped + (took < STEPS)
            for text in wrong:
                print(f'{name}: image {k} of seed {seed}: {text}')
                status = 1
        if picc != '-':
            status = both_chips(picc, name, folder, count, seed) or status
    print(f'{name}: {count} random images, {steps} steps, {lines} lines, {stopped} images that come to SLEEP or to no instruction: {"0 differ" if not status else "some differ"}')
    return status or (lines < 2 * count)


if __name__ == '__main__':
    sys.exit(main())
