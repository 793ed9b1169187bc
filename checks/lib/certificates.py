"""Certificates of the depth of the return stack, by their definition, and slow searches for them that share no code with the compiler's.

An image is a dictionary from addresses to words; a word that isn't in it is the one that is given for all others. A certificate is a
dictionary with `interrupts`, `cell`, `rows` (from an address to a pair of a routine's number and facts) and `routines` (a list). Facts are
what is known of bits 3 and 4 of PCLATH (None, 0 or 1), and whether PCLATH is as when the interrupt was taken, W holds that PCLATH, and the
byte `cell` does. The instructions are those of the data sheet DS39582, table 15-2."""
from itertools import product

SIZE = 8192
INDF, PCL, PCLATH, INTCON = 0x00, 0x02, 0x0A, 0x0B
CELLS = range(0x70, 0x80)
HANDLER = 4
AT_RESET = (0, 0, False, False, False)
AT_INTERRUPT = (None, None, True, False, False)


# ---- instructions
def kind(word):
    """What a word is: `goto`, `call`, `return`, `retfie`, `sleep`, `plain`, or `none` where it is no instruction's."""
    top = word >> 11
    if top == 4:
        return 'call'
    if top == 5:
        return 'goto'
    if word >> 10 == 13 or word == 0x0008:
        return 'return'
    if word == 0x0009:
        return 'retfie'
    if word == 0x0063:
        return 'sleep'
    if word >> 8 == 0:
        # MOVWF, CLRWDT and four words of NOP
        return 'plain' if word & 0x80 or word in (0x0064, 0x0000, 0x0020, 0x0040, 0x0060) else 'none'
    if word >> 8 in (0x3A, 0x39, 0x38) or word >> 9 in (0x1F, 0x1E) or word >> 10 == 12:
        return 'plain'
    return 'plain' if word < 0x2000 else 'none'


def written(word):
    """The operand of the file register that a plain instruction writes, or None."""
    if 0x1000 <= word < 0x1800 or word < 0x1000 and word & 0x80 and word >> 8 != 0 or 0x0080 <= word < 0x0100:
        return word & 0x7F
    return None


def writes_w(word):
    """Whether a plain instruction writes W."""
    return 0x0100 <= word < 0x1000 and not word & 0x80 or word >= 0x3000


def skips(word):
    """DECFSZ, INCFSZ, BTFSC and BTFSS."""
    return word >> 8 in (0x0B, 0x0F) or 0x1800 <= word < 0x2000


def is_movwf(word):
    return 0x0080 <= word < 0x0100


def loaded(word):
    """The operand of a MOVF to W, or None."""
    return word & 0x7F if word >> 8 == 0x08 and not word & 0x80 else None


# ---- facts
def after(cell, word, facts):
    """The facts behind a plain instruction."""
    p3, p4, orig, w_orig, saved = facts
    to, bit = written(word), word >> 7 & 7
    if to == PCLATH:
        if 0x1000 <= word < 0x1800:
            value = int(word >= 0x1400)
            p3, p4 = (value if bit == 3 else p3), (value if bit == 4 else p4)
        else:
            p3 = p4 = 0 if word >> 7 == 3 else None
        orig = is_movwf(word) and facts[3]
    if writes_w(word):
        w_orig = loaded(word) == PCLATH and facts[2] or loaded(word) == cell and facts[4]
    if to == cell:
        saved = is_movwf(word) and facts[3]
    return p3, p4, bool(orig), bool(w_orig), bool(saved)


def fits(facts, row):
    """Whether what the row's facts know and hold is among these."""
    return all(r is None or r == f for f, r in zip(facts[:2], row[:2])) and all(f or not r for f, r in zip(facts[2:], row[2:]))


def weaker(facts):
    """All facts that these fit."""
    return list(product(*([None] if f is None else [f, None] for f in facts[:2]), *([False, True] if f else [False] for f in facts[2:])))


def common(a, b):
    return tuple(x if x == y else None for x, y in zip(a[:2], b[:2])) + tuple(x and y for x, y in zip(a[2:], b[2:]))


def target(facts, word):
    """Where GOTO and CALL lead, or None where a bit isn't known."""
    return None if None in facts[:2] else (2 * facts[1] + facts[0]) * 2048 + (word & 0x7FF)


def places_behind(at, word):
    return [(at + 1) % SIZE] + ([(at + 2) % SIZE] if skips(word) else [])


# ---- the definition
class Judge:
    """Whether a certificate is valid for an image, rule by rule."""

    def __init__(self, image, other, certificate):
        self.image, self.other = image, other
        self.interrupts, self.cell = certificate['interrupts'], certificate['cell']
        self.rows, self.routines = certificate['rows'], certificate['routines']

    def word(self, at):
        return self.image.get(at, self.other)

    def has(self, at, number, facts):
        return at in self.rows and self.rows[at][0] == number and fits(facts, self.rows[at][1])

    def returns(self, number):
        return any(n == number and kind(self.word(at)) == 'return' for at, (n, _) in self.rows.items())

    def is_root(self, number):
        return number == 0 or self.interrupts and number == 1

    def asked(self, at):
        """The addresses that a row asks for."""
        number, facts = self.rows[at]
        word = self.word(at)
        what = kind(word)
        if what == 'plain':
            return places_behind(at, word)
        if what not in ('goto', 'call'):
            return []
        to = target(facts, word)
        back = what == 'call' and to in self.rows and self.returns(self.rows[to][0])
        return ([] if to is None else [to]) + ([(at + 1) % SIZE] if back else [])

    def all_met(self):
        met = {0} | ({HANDLER} if self.interrupts else set())
        for _ in range(SIZE):
            more = met | {to for at in met if at in self.rows for to in self.asked(at)}
            if more == met:
                break
            met = more
        return all(at in met for at in self.rows)

    def has_order(self):
        if not all(0 <= at < SIZE and 0 <= n < len(self.routines) for at, (n, _) in self.rows.items()) or self.cell not in CELLS:
            return False
        if any(q['entry'] not in self.rows or self.rows[q['entry']][0] != n for n, q in enumerate(self.routines)):
            return False
        first = bool(self.routines) and self.routines[0]['entry'] == 0 and not self.routines[0]['isr'] and self.has(0, 0, AT_RESET)
        if self.interrupts:
            second = len(self.routines) > 1 and self.routines[1]['entry'] == HANDLER and self.routines[1]['isr'] and self.has(HANDLER, 1, AT_INTERRUPT)
        else:
            second = not any(q['isr'] for q in self.routines)
        bare = all(n == 1 or not any(facts[2:]) for n, facts in self.rows.values())
        return first and second and bare and self.all_met()

    def is_allowed(self, number, word):
        what, isr = kind(word), self.routines[number]['isr']
        if what == 'retfie':
            return self.interrupts and number == 1
        if what == 'return':
            return not self.is_root(number)
        if what != 'plain':
            return True
        to = written(word)
        if to in (PCL, INDF):
            return False
        if to == INTCON:
            spares = 0x1000 <= word < 0x1400 or 0x1400 <= word < 0x1800 and word >> 7 & 7 != 7
            return self.interrupts and (not isr or spares)
        return not (isr and number != 1 and to == self.cell)

    def calls(self, at, number, facts, to):
        if to is None or to not in self.rows:
            return False
        called = self.rows[to][0]
        q = self.routines[called]
        if q['entry'] != to or self.is_root(called) or q['isr'] != self.routines[number]['isr'] or not self.has(to, called, facts[:2] + (False, False, False)):
            return False
        behind = (q['out3'], q['out4'], False, False, facts[4])
        return not self.returns(called) or self.has((at + 1) % SIZE, number, behind)

    def row_holds(self, at):
        number, facts = self.rows[at]
        word, q = self.word(at), self.routines[number]
        what = kind(word)
        if not self.is_allowed(number, word):
            return False
        if what == 'plain':
            return all(self.has(to, number, after(self.cell, word, facts)) for to in places_behind(at, word))
        if what == 'goto':
            to = target(facts, word)
            return to is not None and self.has(to, number, facts)
        if what == 'call':
            return self.calls(at, number, facts, target(facts, word))
        if what == 'return':
            return q['out3'] in (None, facts[0]) and q['out4'] in (None, facts[1])
        return what != 'retfie' or facts[2]

    def bound(self, number):
        called = [self.rows[target(facts, self.word(at))][0] for at, (n, facts) in self.rows.items() if n == number and kind(self.word(at)) == 'call']
        return max((self.routines[n]['bound'] + 1 for n in called), default=0)

    def routine_holds(self, number):
        q = self.routines[number]
        return (self.returns(number) or q['out3'] is None and q['out4'] is None) and q['bound'] == self.bound(number)

    def total(self):
        return self.routines[0]['bound'] + (1 + self.routines[1]['bound'] if self.interrupts else 0)

    def is_valid(self):
        if not self.has_order() or not all(self.row_holds(at) for at in self.rows):
            return False
        lets_in = any(not self.routines[n]['isr'] and kind(self.word(at)) == 'plain' and written(self.word(at)) == INTCON for at, (n, _) in self.rows.items())
        return all(self.routine_holds(n) for n in range(len(self.routines))) and (not self.interrupts or lets_in) and self.total() <= 8


# ---- searches
def certificate_of(image, other, interrupts, cell, spots, outs):
    """The certificate of found spots (from an address to an entry, isr and facts) and of what is known where routines are left; None where
    some calls lead to themselves or an entry isn't a row of its routine."""
    entries = [0] + ([HANDLER] if interrupts else []) + sorted({e for e, _, _ in spots.values()} - {0, HANDLER if interrupts else 0})
    number = {entry: n for n, entry in enumerate(entries)}
    if any(entry not in spots or spots[entry][0] != entry for entry in entries):
        return None
    called = {entry: set() for entry in entries}
    for at, (entry, _, facts) in spots.items():
        word = image.get(at, other)
        if kind(word) == 'call':
            to = target(facts, word)
            if to not in number:
                return None
            called[entry].add(to)
    bounds = {}
    while len(bounds) < len(entries):
        more = {e: max((bounds[c] + 1 for c in called[e]), default=0) for e in entries if e not in bounds and all(c in bounds for c in called[e])}
        if not more:
            return None
        bounds.update(more)
    routines = [{'entry': e, 'isr': spots[e][1], 'bound': bounds[e], 'out3': outs.get(e, (None, None))[0], 'out4': outs.get(e, (None, None))[1]} for e in entries]
    return {'interrupts': interrupts, 'cell': cell, 'rows': {at: (number[e], facts) for at, (e, _, facts) in spots.items()}, 'routines': routines}


class Every:
    """Every certificate with this cell and these interrupts that may be valid for an image: each row that is asked for gets all facts that
    fit it in turn, and each routine that is left all outs."""

    def __init__(self, image, other, interrupts, cell, most):
        self.image, self.other, self.interrupts, self.cell, self.left = image, other, interrupts, cell, most
        self.found = []

    def word(self, at):
        return self.image.get(at, self.other)

    def asks(self, at, spots, outs):
        """What a spot asks for: addresses with the entry, isr and facts there, or None where it is refused."""
        entry, isr, facts = spots[at]
        word = self.word(at)
        what = kind(word)
        if self.is_refused(entry, isr, facts, word):
            return None
        if what == 'plain':
            behind = after(self.cell, word, facts)
            return [(to, entry, isr, behind) for to in places_behind(at, word)]
        if what == 'return':
            known = outs.get(entry)
            return [] if known is not None and known[0] in (None, facts[0]) and known[1] in (None, facts[1]) else None
        if what not in ('goto', 'call'):
            return []
        to = target(facts, word)
        if to is None:
            return None
        if what == 'goto':
            return [(to, entry, isr, facts)]
        back = [((at + 1) % SIZE, entry, isr, outs[to] + (False, False, facts[4]))] if to in outs else []
        return [(to, to, isr, facts[:2] + (False, False, False))] + back

    def is_refused(self, entry, isr, facts, word):
        """Whether no certificate has this word in this routine with these facts, whatever its other rows are."""
        what, to = kind(word), written(word)
        is_root = entry == 0 or self.interrupts and entry == HANDLER
        if what == 'plain':
            spares = 0x1000 <= word < 0x1400 or 0x1400 <= word < 0x1800 and word >> 7 & 7 != 7
            return to in (PCL, INDF) or to == INTCON and not (self.interrupts and (not isr or spares)) or isr and not is_root and to == self.cell
        return what == 'return' and is_root or what == 'retfie' and not (self.interrupts and entry == HANDLER and facts[2])

    def next_choice(self, spots, outs):
        """The first spot that is asked for and isn't there, or the entry of a routine that is left without outs; or whether all is there."""
        for at, (entry, _, _) in spots.items():
            if kind(self.word(at)) == 'return' and entry not in outs:
                return 'out', entry
        for at in spots:
            wanted = self.asks(at, spots, outs)
            if wanted is None:
                return 'refused', None
            for to, entry, isr, facts in wanted:
                if to not in spots:
                    return 'spot', (to, entry, isr, facts)
                if spots[to][:2] != (entry, isr) or not fits(facts, spots[to][2]):
                    return 'refused', None
        return 'whole', None

    def go(self, spots, outs):
        self.left -= 1
        if self.left < 0:
            return
        what, which = self.next_choice(spots, outs)
        if what == 'whole':
            certificate = certificate_of(self.image, self.other, self.interrupts, self.cell, spots, outs)
            if certificate is not None and Judge(self.image, self.other, certificate).is_valid():
                self.found.append(Judge(self.image, self.other, certificate).total())
        elif what == 'spot':
            to, entry, isr, facts = which
            for less in weaker(facts):
                self.go({**spots, to: (entry, isr, less)}, outs)
        elif what == 'out':
            for out in product((None, 0, 1), repeat=2):
                self.go(spots, {**outs, which: out})

    def begin(self):
        for main in weaker(AT_RESET):
            spots = {0: (0, False, main)}
            if not self.interrupts:
                self.go(spots, {})
                continue
            for handler in weaker(AT_INTERRUPT):
                self.go({**spots, HANDLER: (HANDLER, True, handler)}, {})
        return self.left >= 0


def cells_of(image, interrupts):
    """The cells to be tried: those that words name, and one of the others, which no rule tells from one another."""
    named = {word & 0x7F for word in image.values()} & set(CELLS) if interrupts else set()
    return sorted(named) + [cell for cell in CELLS if cell not in named][:1]


def every_total(image, other, most):
    """The totals of all certificates that are valid for an image; None where there are more than so many choices to be made."""
    totals = set()
    for interrupts in (False, True):
        for cell in cells_of(image, interrupts):
            every = Every(image, other, interrupts, cell, most)
            if not every.begin():
                return None
            totals |= set(every.found)
    return totals


def strongest(image, other, interrupts, cell):
    """The certificate with the strongest facts, if its rules hold."""
    every = Every(image, other, interrupts, cell, 0)
    spots, outs = {0: (0, False, AT_RESET)}, {}
    if interrupts:
        spots[HANDLER] = (HANDLER, True, AT_INTERRUPT)
    waiting = list(spots)
    while waiting:
        at = waiting.pop()
        entry, isr, facts = spots[at]
        if kind(image.get(at, other)) == 'return':
            out = facts[:2] if entry not in outs else common(outs[entry] + (False,) * 3, facts)[:2]
            if outs.get(entry) != out:
                outs[entry] = out
                waiting += [other_at for other_at in spots if kind(image.get(other_at, other)) == 'call']
            continue
        for to, entry, isr, behind in every.asks(at, spots, outs) or []:
            if to not in spots:
                spots[to] = (entry, isr, behind)
                waiting.append(to)
            elif spots[to][:2] != (entry, isr):
                return None
            elif common(spots[to][2], behind) != spots[to][2]:
                spots[to] = (entry, isr, common(spots[to][2], behind))
                waiting.append(to)
    certificate = certificate_of(image, other, interrupts, cell, spots, outs)
    return certificate if certificate is not None and Judge(image, other, certificate).is_valid() else None


def depth_of(image, other):
    """The total of a certificate that is valid for an image, or None."""
    for interrupts in (False, True):
        for cell in cells_of(image, interrupts):
            found = strongest(image, other, interrupts, cell)
            if found is not None:
                return Judge(image, other, found).total()
    return None
