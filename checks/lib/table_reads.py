"""Runs programs whose const tables functions read, in two forms: with these functions as they are, where a table is a static object, and
with one read of a table in program memory in place of each of their bodies. Byte code with such reads (`Reading`) has to follow byte code
without them, as core_code's definitions run both, and symbolic code with them (`Table`) has to follow byte code with them, by sym_code's.
Arguments: the program picc_show, how many programs, the seed, and how many processes (0: none but this one, and what was never reached is
told)."""
import copy
import os
import random
import subprocess
import sys
import tempfile
from collections import Counter

import table_texts
from code_text import Shown, codes
from definitions import Differs, at_first, event_text, random_inputs, random_pairs, script_text
from interpreter import definition
from jobs import results, tell_unreached, told
from library import Function, NONE, Record, some
from links import unfollowed
from machines import CORE, SYM, Core, Symbolic, core_program, layout_of, marked_prices

STEPS, EVENTS = 6000, 60
BANKS = 'Rattle.bank_page.specs.Kinds'


# ---- tables and their readers
def readers_of(shown):
    """The copies of functions that read a table, each with the number of the table's static object."""
    front, numbers, found = codes(table_texts.FRONT), {static.name: n for n, static in enumerate(shown.program.statics)}, {}
    for c, its in enumerate(shown.copies):
        if its.function[0] == 'User':
            name = shown.program.functions[its.function[1]].name
            if name[:len(front)] == front:
                found[c] = numbers[name[len(front):]]
    return found


def tables_of(shown, readers, sizes, rng):
    """The bytes of each table by its number, of which there are as many as are meant."""
    tables = {}
    for n in sorted(set(readers.values())):
        tables[n] = tuple(byte[1] for byte in shown.first[n])
        size = sizes[bytes(shown.program.statics[n].name).decode('latin-1')]
        tables[n] += tuple(rng.randrange(256) for _ in range(size - len(tables[n])))
    return tables


# ---- byte code
def with_tables(program, tables):
    """Byte code in which the static objects that are tables begin as these bytes, or have none where none is told."""
    first = tuple(tuple(('Number', byte) for byte in tables[n]) if n in tables else bytes_ for n, bytes_ in enumerate(program.first))
    return program.updated(first=first)


def with_readings(program, readers, tables):
    """The byte code in which a reader's body is one read of its table, which is no object any more."""
    bare = with_tables(program, {n: () for n in tables})
    return bare.updated(reads=Function(1, lambda c: some(tables[readers[c]]) if c in readers else NONE),
                        body=Function(1, lambda c: (('Leave',),) if c in readers else program.body(c)))


class ByteCode(Core):
    """A run of this byte code. `reads` counts the reads of tables in program memory."""

    def __init__(self, shown, program, inputs, pairs):
        super().__init__(shown, inputs, pairs, program)
        self.reads = 0

    def step(self):
        self.reads += bool(self.state.code) and self.state.code[0][0] == 'Reading'
        super().step()


# ---- symbolic code
def reader_code(c, table, root):
    """The block of a copy that reads a table: the index goes to the results, and the byte too."""
    index, result = (lambda k: ('Byte', ('Frame', c, k))), (lambda k: ('Byte', ('Result', root, k)))
    moved = [x for k in (0, 1) for x in (('File', ('Movf',), index(k), ('W',)), ('Movwf', result(k)))]
    return (*moved, ('Table', table, root), ('Movwf', result(0)), ('Plain', ('Return',)))


def shown_with(shown, readers, tables, rng):
    """What is shown of the program with reads of tables in program memory: its symbolic code without selects, and the tables as objects
    of no bytes. Its blocks stand in any pages."""
    made = copy.copy(shown)
    made.addresses = {name: 2048 * rng.randrange(4) for name in shown.addresses}
    made.objects = [o.updated(size=0) if n in tables else o for n, o in enumerate(shown.objects)]
    made.first = tuple(() if n in tables else bytes_ for n, bytes_ in enumerate(shown.first))
    made.plain = {name: reader_code(name[1], readers[name[1]], shown.copies[name[1]].root) if name[0] == 'Copy' and name[1] in readers else block
                  for name, block in shown.plain.items()}
    return made


def needs(layout, own, instruction):
    """The bank and the block whose page an instruction needs, each with the selects of it."""
    byte, target = definition(BANKS, 'byte_of')(instruction), definition(BANKS, 'target_of')(instruction)
    if byte != NONE:
        bank = definition(SYM + 'Layout', 'address_of')(layout, byte[1]) // 128
        yield 'bank', (bank, (('SelectBank', ('Rp1',), bank >= 2), ('SelectBank', ('Rp0',), bank % 2 == 1)))
    if target != NONE:
        block = definition(SYM + 'Programs', 'block_of')(own, target[1])
        yield 'page', (block, tuple(('SelectPage', (bit,), target[1]) for bit in ('High', 'Low')))


def with_selects(layout, own, block):
    """The code of a block of this name with all selects that it can need: nothing is known at its front, at a label and behind a call. What
    a skip passes over has its selects before the skip."""
    is_skip, known, wanted, made, waiting = definition(BANKS, 'is_skip'), {}, {}, (), ()
    for instruction in block:
        for what, need in needs(layout, own, instruction):
            if wanted.setdefault(what, need)[0] != need[0]:
                raise Differs('a skip and what it passes over need two banks or pages: %r' % (waiting + (instruction,),))
        waiting += (instruction,)
        if is_skip(instruction):
            continue
        for what, (value, selects) in wanted.items():
            made += selects if known.get(what) != value else ()
            known[what] = value
        made, waiting, wanted = made + waiting, (), {}
        if instruction[0] in ('Label', 'Call'):
            known = {}
        elif instruction[0] == 'Table':
            known.pop('page', None)
    return made


class TableCode(Symbolic):
    """A run of symbolic code with these tables in program memory. What a read of a byte leaves in the flags and in the page is anything, and
    the same for each read of it."""

    def __init__(self, shown, tables, inputs, pairs, rng, blocks, banked, prices):
        super().__init__(shown, inputs, pairs, rng, blocks, banked, prices)
        left = {}
        leaves = Function(2, lambda table, k: left.setdefault((table, k), Record(**{
            name: rng.randrange(2) == 1 for name in ('z', 'dc', 'c', 'page_low', 'page_high')})))
        program = self.setting.program.updated(tables=Function(1, lambda n: some(tables[n]) if n in tables else NONE))
        self.setting = self.setting.updated(program=program, leaves=leaves)


def symbolic_runs(shown, tables, inputs, pairs, rng, steps, events):
    """Runs of so many steps and events of the symbolic code with these tables: without selects, by what is marked in it, and with all
    selects, by the time that its instructions take."""
    layout = layout_of(shown)
    full = {name: with_selects(layout, name, block) for name, block in shown.plain.items()}
    times = definition(SYM + 'Cost', 'times_in')
    most = definition(SYM + 'Cost', 'most_prices')(Function(2, lambda name, n: times(Function(1, full.__getitem__), name, n)))
    for blocks, banked, prices in ((shown.plain, False, marked_prices(shown)), (full, True, {'most': most})):
        yield TableCode(shown, tables, inputs, pairs, rng, blocks, banked, prices).run(steps, events)


# ---- comparisons
def reader_steps(shown, program, c):
    """The three steps of byte code in which a copy reads its table, each with its instructions."""
    block, call = shown.plain['Copy', c], ('Call', ('Block', ('Copy', c)))
    yield ('Do', (), ('Call', c)), (call,) + block[:4]
    yield ('Reading', program.reads(c)[1]), block[4:6]
    yield ('Do', (), ('Leave',)), block[6:]


def reader_costs(shown, program, readers):
    """Each such step costs at most no less than its instructions, each with all selects, and at least no more than what is marked of them."""
    cost = lambda name, *arguments: definition(CORE + 'Cost', name)(*arguments)
    layout, time_of, is_marked = layout_of(shown), definition(SYM + 'Cost', 'time_of'), definition(SYM + 'Marks', 'is_marked')
    variables, caller = Function(1, lambda c: shown.copies[c].variables), (('InCall', 0, ()),)
    for c in readers:
        for task, code in reader_steps(shown, program, c):
            most = sum(time_of(y) for x in code for y in with_selects(layout, ('Copy', c), (x,)))
            least = sum(is_marked(variables, x) for x in code)
            if most > cost('task_most', (task,), caller) or least < cost('least_task', program, (task,), caller):
                raise Differs('the step %s of copy %d takes %d instructions, of which %d are marked' % (task[0], c, most, least))


def compared(upper, lower, names):
    """The lower run has the events of the upper one, as far as that isn't stuck, and ends where it ends."""
    i = at_first(upper.events, lower.events)
    if i < len(upper.events):
        raise Differs('event %d: %s %s, %s %s' % (i, names[0], event_text(upper, i), names[1], event_text(lower, i)))
    if lower.end == 'stuck' and upper.end == 'goes':
        # it may be ahead, and stuck where the upper run will be
        upper.run(upper.steps + STEPS, len(lower.events) + 1)
        if upper.end != 'stuck' or len(upper.events) > len(lower.events):
            raise Differs('%s is stuck after %d events, and %s is not' % (names[1], len(lower.events), names[0]))
    if upper.end == 'still' and (lower.end != 'still' or len(lower.events) > len(upper.events)):
        raise Differs('%s is still after %d events, %s has %d and is %s' % (names[0], len(upper.events), names[1], len(lower.events), lower.end))


def followed(upper, lower, most, least, names):
    i = unfollowed(upper, lower, most, least, True)
    if i is not None:
        raise Differs('no place of %s belongs to moment %d of %s, %s and %s' % (names[1], i, names[0], most, least))


def compare_all(shown, program, readers, tables, inputs, pairs, rng, tally):
    """The four runs under one schedule. The answer: the events of the first one."""
    plain = ByteCode(shown, with_tables(program, tables), inputs, pairs).run(STEPS, EVENTS)
    reading = ByteCode(shown, with_readings(program, readers, tables), inputs, pairs).run(plain.steps + 1, len(plain.events) + 1)
    names = 'byte code', 'byte code with reads of tables'
    compared(plain, reading, names)
    followed(plain, reading, 'most', 'least', names)
    changed = shown_with(shown, readers, tables, rng)
    reader_costs(changed, reading.setting.program, readers)
    # an instruction is two steps at most
    bare, full = symbolic_runs(changed, tables, inputs, pairs, rng, 2 * reading.most + 100, len(plain.events) + 1)
    for run, most, least, name in ((bare, None, 'marked', 'symbolic code'), (full, 'most', None, 'symbolic code with selects')):
        compared(reading, run, (names[1], name))
        followed(reading, run, most, least, (names[1], name))
    for name, run in (('byte code', plain), ('reading', reading), ('symbolic', bare), ('selected', full)):
        tally[name + ' steps'] += run.steps
    tally.update({'scripts': 1, 'events': len(plain.events), 'reads': reading.reads, 'ends ' + plain.end: 1})
    return plain.events


# ---- programs
def one(job):
    """Runs a program. The answer: a tally, and what differs."""
    show, label, (text, sizes), seed = job
    rng, tally = random.Random(seed), Counter()
    with tempfile.TemporaryDirectory() as folder:
        name = os.path.join(folder, 'a.c')
        with open(name, 'w', encoding='latin-1') as file:
            file.write(text)
        ran = subprocess.run([show, 'code', name], stdout=subprocess.PIPE, timeout=120)
    if ran.returncode == 1:
        return {'refused': 1}, None
    if ran.returncode != 0:
        return {}, '%s: picc_show ends with %d' % (label, ran.returncode)
    tally['programs'] += 1
    inputs, pairs = random_inputs(rng), []
    try:
        shown = Shown(ran.stdout.decode('latin-1'))
        readers = readers_of(shown)
        given = core_program(shown), readers, tables_of(shown, readers, sizes, rng), inputs
        events = compare_all(shown, *given, pairs, rng, tally)
        for _ in range(2 if shown.handler is not None else 0):
            pairs = random_pairs(rng, len(events) + 2)
            compare_all(shown, *given, pairs, rng, tally)
    except Differs as error:
        return tally, '%s: %s\n%s%s' % (label, error, script_text(inputs, pairs), text)
    except Exception as error:      # a definition without a clause for what came
        import traceback
        return tally, '%s: %r\n%s\n%s' % (label, error, traceback.format_exc(limit=-3), text)
    return tally, None


def jobs(show, count, seed):
    for at in range(seed, seed + count):
        yield show, 'random program %d' % at, table_texts.text(random.Random(at)), at


def main():
    show, count, seed, processes = sys.argv[1], int(sys.argv[2]), int(sys.argv[3]), int(sys.argv[4])
    status = told('table_reads', results(processes, one, jobs(show, count, seed), 4))
    if processes == 0:
        tell_unreached('table_reads')
    return status


if __name__ == '__main__':
    sys.exit(main())
