"""Images and maps that are made wrong, and the clause of the headline that has to refuse each. An image is changed word by word, as a wrong
body of the compiler would change it; the runs under which it has to be refused are bounded."""
from collections import namedtuple

from clauses import RUN_CLAUSES, Run, random_start
from map_clauses import MAP_CLAUSES
from interpreter import definition

PORT = 'void main(void){PORTB=5;}'
STATIC = 'unsigned char x=37;void main(void){PORTB=x;}'
# main's pointer is in FSR, and its sum in W and STATUS, where the handler comes
SUMS = ('unsigned char a[3]={5,6,7};unsigned char n;void interrupt h(void){unsigned char*q;q=&n;*q=*q+1;INTF=0;}'
        'void main(void){unsigned char*p;unsigned int s=0;INTCON=0x90;for(p=a;p!=a+3;p++)s+=*p;PORTB=s;PORTC=n;}')
UNDEFINED = 'void main(void){unsigned char x;PORTB=3;x=0;x=1/x;PORTC=x;}'

# the moments at which the handler of SUMS may be entered, and how many follow
ENTRIES, BEHIND = range(10, 240), 115
GOTO, CALL, RETURN, SLEEP, MOVWF_PORTB, NOP = 0x2800, 0x2000, 0x0008, 0x0063, 0x0086, 0x0000
SWAPF, MOVF, MOVWF, MOVLW = 0x0e00, 0x0800, 0x0080, 0x3000
STATUS, FSR, PAGE_WORDS = 3, 4, 2048

# What is wrong, the text, the clause that has to refuse it, what makes the wrong program of the built one, the last moment of its run, and
# the moments one of which a flag of an interrupt has to arrive at, for runs to be refused; none: nothing arrives.
Wrong = namedtuple('Wrong', 'what text clause change last entries')


def with_words(built, words):
    """The program with other words at some addresses."""
    return built.changed(image=tuple(words.get(at, word) for at, word in enumerate(built.image)))


def with_line(built, kind, at, **fields):
    """The program with another line in its map."""
    lines = list(getattr(built.content, kind))
    lines[at] = lines[at].updated(**fields)
    return built.changed(**{kind: tuple(lines)})


def at_main(word):
    """Another word where main begins."""
    return lambda built: with_words(built, {built.content.main: word})


def to_main(jump):
    """A jump to main, or a call of it, where main begins."""
    return lambda built: with_words(built, {built.content.main: jump + built.content.main % PAGE_WORDS})


def other_literal(byte):
    """Each literal of this byte is one more."""
    return lambda built: with_words(built, {at: word + 1 for at, word in enumerate(built.image) if word == MOVLW + byte})


def places(built, row):
    """Where words of this row of the instruction table stand in the start block, which saves and restores the handler's context."""
    row_of = definition('Rattle.pic_isa.specs.Lookup', 'row_of')
    return [at for at, word in enumerate(built.image[:built.content.main]) if row_of(word)[1] == row]


def unsaved_pointer(built):
    """FSR is neither saved nor given back."""
    saved, given = places(built, ('Movf', FSR, False))[0], places(built, ('Movwf', FSR))[0]
    return with_words(built, {at: NOP for at in (saved, saved + 1, given - 1, given)})


def status_first(built):
    """STATUS is given back before W, and W by MOVF, which changes Z."""
    to_status, end = places(built, ('Movwf', STATUS))[0], places(built, ('Retfie',))[0]
    status, w = built.image[to_status - 1] % 128, built.image[end - 1] % 128
    return with_words(built, {to_status - 1: SWAPF + status, to_status: MOVWF + STATUS, end - 2: NOP, end - 1: MOVF + w})


def strange_frame(built):
    """The handler stores to main's frame where it stored to its own."""
    mains, own = (next(line for line in built.content.frames if line.root == (root,)) for root in ('Main', 'Isr'))
    block = 'Copy', built.shown.handler
    begin, words = built.shown.addresses[block], sum(x[0] != 'Label' for x in built.shown.selected[block])
    stores = [at for at in range(begin, begin + words) if built.image[at] == MOVWF + own.address]
    return with_words(built, dict.fromkeys(stores, MOVWF + mains.address))


def over_main(built):
    """The map has a frame of the handler's root where main's stands."""
    at = next(i for i, line in enumerate(built.content.frames) if line.root == ('Isr',) and line.size)
    return with_line(built, 'frames', at, address=built.content.frames[0].address)


WRONG = [
    Wrong('main jumps to itself', PORT, 'pace', to_main(GOTO), 33000, ()),
    Wrong('a literal is one more', PORT, 'prefix', other_literal(5), 100, ()),
    Wrong('FSR is not saved', SUMS, 'prefix', unsaved_pointer, BEHIND, ENTRIES),
    Wrong('STATUS is given back before W', SUMS, 'prefix', status_first, BEHIND, ENTRIES),
    Wrong('a static begins with another byte', STATIC, 'end_state', other_literal(37), 100, ()),
    Wrong('the handler stores to the frame of main', SUMS, 'frames', strange_frame, BEHIND, ENTRIES),
    Wrong('main calls itself', PORT, 'no_overflow', to_main(CALL), 100, ()),
    Wrong('main returns', PORT, 'no_underflow', at_main(RETURN), 100, ()),
    Wrong('main is not met', PORT, 'start_up', lambda built: with_words(built, {0: GOTO}), 4096, ()),
    Wrong('a register is stored to at reset', PORT, 'no_early_access', lambda built: with_words(built, {0: MOVWF_PORTB}), 100, ()),
    Wrong('main sleeps', PORT, 'words', at_main(SLEEP), None, ()),
    Wrong('a frame stands elsewhere', PORT, 'mapped', lambda built: with_line(built, 'frames', 0, address=0x21), None, ()),
    Wrong('a frame has more bytes', PORT, 'mapped', lambda built: with_line(built, 'frames', 0, size=9), None, ()),
    Wrong('an object stands elsewhere', STATIC, 'mapped', lambda built: with_line(built, 'objects', 0, address=0x30), None, ()),
    Wrong('a frame has no line', PORT, 'mapped', lambda built: built.changed(frames=()), None, ()),
    Wrong('main is beyond program memory', PORT, 'main', lambda built: built.changed(main=0x2000), None, ()),
    Wrong('the end is beyond program memory', PORT, 'halt', lambda built: built.changed(halt=0x2000), None, ()),
    Wrong('frames of both roots overlap', SUMS, 'apart', over_main, None, ()),
    Wrong('a frame overlaps an object', SUMS, 'clear_of_objects', lambda built: with_line(
        built, 'frames', 0, address=built.content.objects[0].address), None, ()),
]


def refused_at(wrong, built, rng):
    """Where the clause refuses the wrong program, or None where it doesn't; and how many runs there were."""
    changed = wrong.change(built)
    if changed.image == built.image and changed.content == built.content:
        raise ValueError('nothing was changed')
    if wrong.last is None:
        return MAP_CLAUSES[wrong.clause](changed), 0
    clause = RUN_CLAUSES[wrong.clause]
    for runs, entry in enumerate(wrong.entries or (None,), 1):
        pairs = [] if entry is None else [(entry, 'Intf')]
        found = clause(Run(changed, random_start(rng), (), pairs, (entry or 0) + wrong.last))
        if found is not None:
            break
    return found, runs
