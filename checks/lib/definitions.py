"""Runs the definitions of all languages on the same programs, and compares them. Arguments: the program picc_show, picc or '-',
how many random programs, the seed, how many processes (0: none but this one, and what was never reached is told), and the files
of programs."""
import json
import os
import random
import subprocess
import sys
import tempfile
from collections import Counter

from code_text import Shown
from machines import FLAGS, Chip, Core, Source, Symbolic, layout_of, marked_prices, prices_by
from interpreter import definition
from jobs import results, tell_unreached, told
from links import unfollowed
import programs
from tables import texts

STEPS, EVENTS = 40000, 150
CHIP_STEPS = 2500


class Differs(Exception):
    """What differs: a sentence, and the two runs."""


def at_first(xs, ys):
    return next((i for i, (x, y) in enumerate(zip(xs, ys)) if x != y), min(len(xs), len(ys)))


def event_text(run, i):
    return run.events[i] if i < len(run.events) else 'no event: %s after %d steps' % (run.end, run.steps)


def compared(above, below, names):
    """The run of the language below has the events of the one above, as far as that is defined, and ends where it ends."""
    upper, lower = above.events, below.events
    defined = above.end in ('goes', 'still')
    common = min(len(upper), len(lower))
    i = at_first(upper[:common], lower[:common])
    if i < common:
        raise Differs('event %d: %s %s, %s %s' % (i, names[0], event_text(above, i), names[1], event_text(below, i)))
    if len(lower) < len(upper) and below.end != 'goes':
        raise Differs('%s ends (%s) before event %d: %s' % (names[1], below.end, len(lower), event_text(above, len(lower))))
    if above.end == 'still' and below.end == 'goes' and below.steps < STEPS * 3 and len(lower) < EVENTS:
        raise Differs('%s goes on behind its end' % names[1])
    if above.end == 'still' and (len(lower) > len(upper) or below.end == 'stuck'):
        raise Differs('%s is still after %d events, %s has %d and is %s' % (names[0], len(upper), names[1], len(lower), below.end))
    if defined and below.end == 'stuck' and above.end == 'goes' and len(upper) > len(lower):
        raise Differs('%s is stuck' % names[1])
    if below.end == 'still' and above.end == 'goes' and len(upper) < EVENTS and above.steps >= STEPS:
        raise Differs('%s is still, and %s goes on' % (names[1], names[0]))


def rising(what, differences):
    """A difference of counts never falls from one event to a later one."""
    high = None
    for i, d in differences:
        if high is not None and d < high[1]:
            raise Differs('%s: between events %d and %d it falls from %d to %d' % (what, high[0], i, high[1], d))
        high = (i, d)


def costs(source, core, plain, lean, selected, nodes):
    """Between any two events a run costs at most no more than the one above it, and at least no less. A pass may leave out what isn't
    marked: of the code before it only marked instructions count at least, and nothing at most. Leaner code is that of narrowed byte code,
    in which an operator may be another one, so it is compared with byte code itself."""
    both = range(min(len(run.events) for run in (source, core, plain, lean, selected)) + 1)
    steps, least = [0] + source.marks, core.counted('least')
    rising('8192 a step less the most cost of byte code', [(i, 8192 * steps[i] - core.counted('most')[i]) for i in both])
    for what, more, less in (
        ('the most cost of byte code less that of the leaner code', core.counted('most'), lean.counted('most')),
        ('the most cost without selects less that with them', lean.counted('most'), selected.counted('most')),
        ('what is marked in the code of functions less the least cost of byte code', plain.counted('marked'), least),
        ('the least cost of the leaner code less that of byte code', lean.counted('least'), least),
        ('the least cost with selects less that without them', selected.counted('least'), lean.counted('least')),
    ):
        rising(what, [(i, more[i] - less[i]) for i in both])
    for i in both:
        # a run that rests is within any bound
        rests = i == len(core.events) and core.end == 'still'
        if steps[i] >= (least[i] + 1) * nodes and not rests:
            raise Differs('event %d: %d steps at least cost %d and %d nodes' % (i, steps[i], least[i], nodes))


def links(core, plain, lean):
    """The runs of symbolic code follow that of byte code at each of its moments, also where no event is near."""
    ways = [(plain, 'most', 'marked')] if plain is lean else [(plain, None, 'marked'), (lean, 'most', 'least')]
    for run, most, least in ways:
        i = unfollowed(core, run, most, least)
        if i is not None:
            raise Differs('no place belongs to moment %d of byte code, at most %s, at least %s' % (i, most, least))


def instructions(chip, selected):
    """Where nothing arrives, the chip's instructions between two events are those that symbolic code counts."""
    both = range(min(len(chip.events), len(selected.events)))
    most, least = selected.counted('most')[1:], selected.counted('least')[1:]
    rising('the most cost of symbolic code less the instructions', [(i, most[i] - chip.marks[i]) for i in both])
    rising('the instructions less the least cost of symbolic code', [(i, chip.marks[i] - least[i]) for i in both])


def contents(shown, chip):
    """Each byte of a static object that isn't const holds the last value written, or its first."""
    at, held = definition('Rattle.pic_chip.specs.Address', 'byte_at'), definition('Rattle.sym_code.specs.Layout', 'shown')
    last = {(e[1][1], e[1][2]): e[2] for e in chip.events if e[0] == 'Write' and e[1][0] == 'Static'}
    layout = layout_of(shown)
    for n, o in enumerate(shown.objects):
        for k in range(o.size if chip.moment.met and not o.constant else 0):
            wanted = last.get((n, k), held(layout, shown.first[n][k]))
            found = at(chip.moment.state, o.address + k)
            if found != wanted:
                raise Differs('byte %d of object %d holds %d and not %d' % (k, n, found, wanted))


def code(shown, program):
    """The byte code that is printed is that which the definitions make, and leaner code has the same blocks."""
    for c, copy in enumerate(shown.copies):
        if copy.function[0] == 'User' and program.body(c) != shown.bodies[c]:
            raise Differs('the byte code of copy %d is not that of the definitions' % c)
        sizes = program.frame_bytes(c), program.parameter_bytes(c), program.variable_bytes(c)
        if copy.function[0] == 'User' and sizes != (copy.size, copy.parameters, copy.variables):
            raise Differs('the frame of copy %d has %r bytes in the definitions, and not %r' % (c, sizes, (copy.size, copy.parameters, copy.variables)))
    if program.first != shown.first:
        raise Differs('first bytes %r are not %r' % (shown.first, program.first))
    if shown.lean.keys() != shown.plain.keys() or shown.lean[('Start',)] != shown.plain[('Start',)]:
        raise Differs('the leaner code has other blocks, or another start block')


def words(shown):
    """Each block has room where it stands, and no more words than are stated for it."""
    stated = definition('Rattle.ram_place.specs.Sizes', 'block_words')
    starts = sorted(shown.addresses.values()) + [8192]
    for name, block in shown.selected.items():
        real, at = sum(x[0] != 'Label' for x in block), shown.addresses[name]
        if at + real > min(start for start in starts if start > at) or at % 2048 + real > 2048:
            raise Differs('block %s has no room for %d words at %d' % (name, real, at))
        most = definition('Rattle.c_typed.specs.Words', 'start_size')(shown.program) if name == ('Start',) else stated(shown.program, function_id(shown.copies[name[1]]))
        if real > most:
            raise Differs('block %s has %d words, stated %d' % (name, real, most))


def function_id(copy):
    return ('User', copy.function[1]) if copy.function[0] == 'User' else ('Helper', copy.function[1])


def script_text(inputs, pairs):
    lines = ['input ' + ' '.join('%02X' % b for b in inputs)] if inputs else []
    return '\n'.join(lines + ['at %d %s' % (t, flag.upper()) for t, flag in sorted(pairs)]) + '\n'


def traced(picc, folder, text, inputs, pairs, source):
    """What `picc trace` prints is the run of the definitions: the undefined step with its kind and line."""
    with open(os.path.join(folder, 'a.c'), 'w') as file:
        file.write(text)
    with open(os.path.join(folder, 's.txt'), 'w') as file:
        file.write(script_text(inputs, pairs))
    ran = subprocess.run([picc, 'trace', 'a.c', 's.txt', '20000'], cwd=folder, stdout=subprocess.PIPE, timeout=120)
    printed = ran.stdout.decode('latin-1').splitlines()
    last = printed[-1] if printed else ''
    if isinstance(source.end, tuple):
        wanted = 'a.c:%d: undefined: %s' % (source.end[2], source.end[1][0].lower())
        if last != wanted:
            raise Differs('picc trace ends with %r, the definitions with %r' % (last, wanted))
    elif 'undefined' in last and source.end == 'still':
        raise Differs('picc trace ends with %r, the definitions go on' % last)


def random_inputs(rng):
    return tuple(rng.choice([0, 1, 2, 127, 128, 255, rng.randrange(256)]) for _ in range(rng.randrange(40)))


def random_pairs(rng, most):
    """Times or lengths below a bound, in any order, each with a flag. Flags that programs enable come more often."""
    count = rng.choice([1, 2, 4, 8, 12])
    return [(rng.randrange(most), rng.choice(FLAGS[:3] * 4 + FLAGS)) for _ in range(count)]


def symbolic(shown, inputs, pairs, rng, events):
    """The runs of the three codes of a program: one run for the first two where they are the same."""
    run = lambda blocks, banked, prices: Symbolic(shown, inputs, pairs, rng, blocks, banked, prices).run(STEPS * 3, events)
    marked, priced = marked_prices(shown), prices_by(shown.price)
    if shown.plain is shown.lean:
        plain = lean = run(shown.lean, False, {**priced, **marked})
    else:
        plain, lean = run(shown.plain, False, marked), run(shown.lean, False, priced)
    return plain, lean, run(shown.selected, True, prices_by(lambda block, index: 1))


def follow(shown, inputs, pairs, rng, tally):
    """All languages above the chip under one schedule."""
    source = Source(shown, inputs, pairs).run(STEPS, EVENTS)
    if isinstance(source.end, tuple) and source.end[0] != 'Undefined':
        raise Differs('the source ends with %r' % (source.end,))
    core = Core(shown, inputs, pairs)
    code(shown, core.setting.program)
    core.run(STEPS * 2, len(source.events) + 20)
    compared(source, core, ('the source', 'byte code'))
    plain, lean, selected = symbolic(shown, inputs, pairs, rng, len(source.events) + 1)
    compared(source, plain, ('the source', 'symbolic code'))
    compared(source, lean, ('the source', 'the leaner code'))
    compared(source, selected, ('the source', 'symbolic code with selects'))
    costs(source, core, plain, lean, selected, shown.nodes)
    links(core, plain, lean)
    for name, run in (('source', source), ('byte code', core), ('symbolic', plain), ('leaner', lean), ('selected', selected)):
        tally[name + ' steps'] += run.steps
    tally['scripts'] += 1
    tally['events'] += len(source.events)
    tally['ends ' + (source.end if isinstance(source.end, str) else source.end[1][0])] += 1
    return source, selected


def on_chip(shown, inputs, arrivals, rng, tally):
    """The chip under real arrivals, and all others under the schedule that is read off it."""
    chip = Chip(shown, inputs, arrivals, rng).run(CHIP_STEPS, EVENTS)
    tally['chip steps'] += chip.steps
    pairs = [(chip.length_at(t), flag) for t, flag in arrivals if t <= chip.steps]
    source, selected = follow(shown, inputs, pairs, rng, tally)
    common = min(len(chip.events), len(source.events))
    i = at_first(chip.events[:common], source.events[:common])
    if i < common:
        raise Differs('event %d: the chip %s, the source %s, read off %s' % (i, event_text(chip, i), event_text(source, i), pairs))
    if source.end == 'still' and len(chip.events) > len(source.events):
        raise Differs('the chip has events behind the end')
    if chip.moment.early:
        raise Differs('the chip accesses a register before main')
    if not isinstance(source.end, tuple):
        if chip.depth or chip.moment.stopped:
            raise Differs('the chip has %d words on its stack, or stops' % chip.depth)
        contents(shown, chip)
        if not arrivals:
            instructions(chip, selected)
    return source, pairs, chip


def one(job):
    """Runs a program. The answer: a tally, and what differs."""
    show, picc, label, text, seed = job
    rng, tally = random.Random(seed), Counter()
    with tempfile.TemporaryDirectory() as folder:
        name = os.path.join(folder, 'a.c')
        with open(name, 'w', encoding='latin-1') as file:
            file.write(text)
        ran = subprocess.run([show, 'code', name], stdout=subprocess.PIPE, timeout=120)
        if ran.returncode == 1:
            return {'refused': 1}, None
        if ran.returncode != 0:
            return {}, '%s: picc_show ends with %d' % (label, ran.returncode)
        tally['programs'] += 1
        inputs, arrivals = random_inputs(rng), []
        try:
            shown = Shown(ran.stdout.decode('latin-1'))
            words(shown)
            source, pairs, chip = on_chip(shown, inputs, [], rng, tally)
            if shown.handler is not None or rng.randrange(4) == 0:
                follow(shown, inputs, random_pairs(rng, len(source.events) + 2), rng, tally)
                arrivals = random_pairs(rng, chip.marks[-1] + 20 if chip.marks else 100)
                source, pairs, _ = on_chip(shown, inputs, arrivals, rng, tally)
            if picc != '-':
                traced(picc, folder, text, inputs, pairs, source)
        except Differs as error:
            return tally, '%s: %s\n%s%s' % (label, error, script_text(inputs, arrivals), text)
        except Exception as error:      # a definition without a clause for what came
            import traceback
            return tally, '%s: %r\n%s\n%s' % (label, error, traceback.format_exc(limit=-3), text)
    return tally, None


def literals(source):
    """The string literals of a source text that are C programs."""
    for text in texts(source):
        if 'main(' in text:
            yield text


def texts_in(name):
    """The C texts of a file: it is one, or has them as literals, or as members of JSON objects, one a line."""
    with open(name, encoding='latin-1' if name.endswith('.c') else 'utf-8') as file:
        content = file.read()
    if name.endswith('.rt'):
        return list(literals(content))
    if name.endswith('.jsonl'):
        return [text for text in (json.loads(line).get('text') for line in content.splitlines()) if text]
    return [content]


def jobs(show, picc, count, seed, files):
    for name in files:
        for at, text in enumerate(texts_in(name) if os.path.exists(name) else []):
            yield show, picc, '%s, program %d' % (os.path.basename(name), at + 1), text, at
    for at in range(count):
        yield show, picc, 'random program %d' % (seed + at), programs.program(random.Random(seed + at)), seed + at


def main():
    show, picc, count, seed, processes = sys.argv[1], sys.argv[2], int(sys.argv[3]), int(sys.argv[4]), int(sys.argv[5])
    status = told('definitions', results(processes, one, jobs(show, picc, count, seed, sys.argv[6:]), 4))
    if processes == 0:
        tell_unreached('definitions')
    return status


if __name__ == '__main__':
    sys.exit(main())
