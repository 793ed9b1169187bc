"""Compares what `picc check` prints of random images with certificates.py. Arguments: picc, and the name that begins each printed line.

Of each tiny image all certificates are tried that the rules leave open, and of each larger one those with the strongest facts. The images are
the same in each run. An answer is right where it is the total of a valid certificate, or there is none; and all valid certificates of an image
have one total."""
import os
import random
import subprocess
import sys
import tempfile

from certificates import SIZE, depth_of, every_total

SLEEP = 0x0063
TINY, LARGER, CHOICES = 200, 200, 3000
CELL = 0x70
# BSF and BCF of bits 3 and 4 of PCLATH, CLRF and MOVWF of it, MOVF of it to W
PAGES = (0x158A, 0x160A, 0x118A, 0x120A, 0x018A, 0x008A, 0x080A)
# MOVWF and MOVF of the byte that keeps PCLATH, and of another
KEPT = (0x0080 | CELL, 0x0800 | CELL, 0x0081 | CELL, 0x0801 | CELL)
# BSF of GIE, BCF of a flag, BSF of an enable bit, MOVWF of INTCON
INTCONS = (0x178B, 0x110B, 0x168B, 0x008B)
# skips, literals, a file register, NOP
PLAIN = (0x1803, 0x1C03, 0x0BA0, 0x3005, 0x3E01, 0x00A0, 0x0820, 0x0000)
# writes of INDF and PCL
LOST = (0x0080, 0x0782)
RETURN, RETFIE = 0x0008, 0x0009
SAVE, RESTORE = (0x080A, 0x0080 | CELL), (0x0800 | CELL, 0x008A, RETFIE)


def jump(chance, places):
    """A GOTO, a CALL, or what ends a run."""
    to = chance.choice(places)
    return chance.choice((0x2800 | to, 0x2000 | to, 0x2000 | to, RETURN, 0x3400, RETFIE, SLEEP))


def words(chance, count, places, in_handler):
    """So many words, most of which a certificate may have."""
    kinds = (PLAIN, PLAIN, PAGES, KEPT, INTCONS if chance.random() < 0.3 or in_handler else PLAIN, LOST if chance.random() < 0.1 else PLAIN)
    return [jump(chance, places) if chance.random() < 0.4 else chance.choice(chance.choice(kinds)) for _ in range(count)]


def handler(chance, places, count):
    """A handler that keeps PCLATH, in most cases, and gets it back."""
    if chance.random() < 0.7:
        return list(SAVE) + words(chance, count, places, True) + list(RESTORE)
    return words(chance, count + 1, places, True) + [RETFIE]


def image_of(chance, parts):
    """Parts of code at addresses, all else SLEEP."""
    image = {}
    for start, code in parts:
        image.update({start + k: word for k, word in enumerate(code)})
    return image


def tiny(chance):
    places = [0, 1, 2, 3, 12, 13]
    parts = [(0, words(chance, chance.randint(1, 3), places, False))]
    if chance.random() < 0.4:
        parts[0][1][0] = chance.choice(INTCONS)
        parts.append((4, handler(chance, [12, 13], chance.randint(0, 1))))
    parts.append((12, words(chance, chance.randint(1, 2), places, False)))
    return image_of(chance, parts)


def larger(chance):
    starts = [32 + 8 * k for k in range(chance.randint(1, 6))]
    parts = [(start, words(chance, chance.randint(1, 7), starts[k + 1:] or [start], False) + [RETURN]) for k, start in enumerate(starts)]
    main = words(chance, chance.randint(1, 3), starts[:1] + [0], False)
    if chance.random() < 0.5:
        main = [0x178B, chance.choice(PLAIN)]
        served = 96
        parts += [(4, handler(chance, [served], chance.randint(0, 3))), (served, words(chance, chance.randint(1, 3), [served], True) + [RETURN])]
    return image_of(chance, [(0, main + [0x2800 | 20]), (20, words(chance, 4, starts, False) + [0x2800 | 20])] + parts)


def hex_of(image):
    """The text of a HEX file of an image (Intel, Hexadecimal Object File Format Specification)."""
    lines = []
    for at in range(0, SIZE, 8):
        data = [byte for k in range(at, at + 8) for byte in (image.get(k, SLEEP) & 0xFF, image.get(k, SLEEP) >> 8)]
        record = [len(data), 2 * at >> 8, 2 * at & 0xFF, 0] + data
        lines.append(':' + ''.join('%02X' % byte for byte in record + [-sum(record) & 0xFF]))
    return '\n'.join(lines + [':00000001FF', ''])


def told(picc, image, path):
    """What picc prints of an image, and its status."""
    with open(path, 'w', encoding='ascii') as file:
        file.write(hex_of(image))
    ran = subprocess.run((picc, 'check', path), stdout=subprocess.PIPE, timeout=120)
    return ran.returncode, ran.stdout.decode('latin-1')


def wanted(depth):
    return (7, 'no certificate\n') if depth is None else (0, f'depth {depth}\n')


def totals_of(image, is_tiny):
    """The totals of its certificates, of all where that is few enough; None where they are too many."""
    if is_tiny:
        return every_total(image, SLEEP, CHOICES)
    depth = depth_of(image, SLEEP)
    return set() if depth is None else {depth}


def compared(picc, chance, make, count, is_tiny, path):
    """How many images were compared, how many have a certificate, and what differs."""
    done, certified, wrong = 0, 0, []
    for _ in range(count):
        image = make(chance)
        totals = totals_of(image, is_tiny)
        if totals is None:
            continue
        done, certified = done + 1, certified + bool(totals)
        got = told(picc, image, path)
        if len(totals) > 1 or got != wanted(min(totals, default=None)):
            wrong.append(f'{sorted(image.items())}: certificates with {sorted(totals)}, and picc has {got}')
    return done, certified, wrong


def main():
    picc, name = sys.argv[1:]
    status = 0
    with tempfile.TemporaryDirectory() as folder:
        for what, make, count, is_tiny in (('tiny', tiny, TINY, True), ('larger', larger, LARGER, False)):
            done, certified, wrong = compared(picc, random.Random(what), make, count, is_tiny, os.path.join(folder, 'a.hex'))
            for line in wrong:
                print(f'{name}: {line}')
            print(f'{name}: {done} {what} images, {certified} with a certificate, {len(wrong)} differ')
            if wrong or done < count // 2 or certified < count // 20 or certified > done * 19 // 20:
                status = 1
    return status


if __name__ == '__main__':
    sys.exit(main())
