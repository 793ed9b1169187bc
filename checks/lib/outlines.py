"""Runs programs that read const tables beside what the definitions of crates/rom_tables make of them, in which each read is a call: by the
definitions of the source both make the same events, under input bytes and arrivals, and end alike; and between two events the made one counts at
least as many steps and at most four times as many. Arguments: the program picc_show, how many programs, the seed, and how many processes (0: none
but this one, and what was never reached is told)."""
import copy
import os
import random
import re
import subprocess
import sys
import tempfile
from collections import Counter

import table_texts
from code_text import Shown
from definitions import Differs, at_first, event_text, random_inputs, random_pairs, script_text
from interpreter import definition
from jobs import results, tell_unreached, told
from library import Record
from machines import Source

STEPS, EVENTS = 5000, 40
ROM = 'Rattle.rom_tables.specs.'


class Texts(table_texts.Texts):
    """Programs whose tables are read in place, with an index of any type on either side."""

    def table(self):
        super().table()
        self.text.pop()
        name, size = self.tables[-1]
        self.tables[-1] = name, min(size, int(re.search(r'\[(\d+)\]', self.text[-1]).group(1)))

    def read(self, scope):
        name, size = self.pick(self.tables)
        self.nested += 1
        index = self.index_of(scope, size)
        self.nested -= 1
        return '(%s)[%s]' % (index, name) if self.chance(10) else '%s[%s]' % (name, index)


def outlined(shown):
    """What is shown of the program that is made, with a copy of each reader under each root."""
    made = copy.copy(shown)
    made.program = definition(ROM + 'Outlined', 'outlined')(shown.program)
    first = len(shown.program.functions)
    readers = range(first, len(made.program.functions))
    made.copies = shown.copies + [Record(root=(root,), function=('User', n)) for n in readers for root in ('Main', 'Isr')]
    return made, len(readers)


def at_events(run):
    return [0] + run.marks


def compare(shown, made, inputs, pairs, tally):
    """Both runs under one schedule. The answer: the events of the first one."""
    given = Source(shown, inputs, pairs).run(STEPS, EVENTS)
    other = Source(made, inputs, pairs).run(18 * given.steps + 20, len(given.events) + 1)
    i = at_first(given.events, other.events)
    if i < len(given.events):
        raise Differs('event %d: given %s, made %s' % (i, event_text(given, i), event_text(other, i)))
    if given.end == 'still' and other.end != 'still':
        raise Differs('given is still, and made is %s' % (other.end,))
    if given.end == 'goes' and other.end not in ('goes', 'still') and len(other.events) <= len(given.events):
        given.run(given.steps + STEPS, EVENTS)
        if given.end == 'goes':
            raise Differs('given goes on, and made ends with %s' % (other.end,))
    a, b = at_events(given), at_events(other)
    for k in range(len(given.events)):
        steps, those = a[k + 1] - a[k], b[k + 1] - b[k]
        if not steps <= those <= 4 * steps:
            raise Differs('before event %d: %d steps given, %d made' % (k, steps, those))
    tally.update({'scripts': 1, 'events': len(given.events), 'steps': given.steps, 'ends ' + str(given.end if isinstance(given.end, str) else given.end[0]): 1})
    return given.events


def one(job):
    """Runs a program. The answer: a tally, and what differs."""
    show, label, text, seed = job
    rng, tally = random.Random(seed), Counter()
    with tempfile.TemporaryDirectory() as folder:
        name = os.path.join(folder, 'a.c')
        with open(name, 'w', encoding='latin-1') as file:
            file.write(text)
        ran = subprocess.run([show, 'code', name], stdout=subprocess.PIPE, timeout=120)
    if ran.returncode == 1:
        return {'refused': 1}, None
    if ran.returncode != 0:
        return {}, '%s: picc_show ends with %d' % (label, ran.returncode)
    inputs, pairs = random_inputs(rng), []
    try:
        shown = Shown(ran.stdout.decode('latin-1'))
        made, readers = outlined(shown)
        tally.update({'programs': 1, 'tables': readers})
        events = compare(shown, made, inputs, pairs, tally)
        for _ in range(2 if shown.handler is not None else 0):
            pairs = random_pairs(rng, len(events) + 2)
            compare(shown, made, inputs, pairs, tally)
    except Differs as error:
        return tally, '%s: %s\n%s%s' % (label, error, script_text(inputs, pairs), text)
    except Exception as error:      # a definition without a clause for what came
        import traceback
        return tally, '%s: %r\n%s\n%s' % (label, error, traceback.format_exc(limit=-3), text)
    return tally, None


def text_of(rng):
    made = Texts(rng)
    for _ in range(1 + rng.randrange(3)):
        made.table()
    if made.chance(40):
        made.tag()
    made.statics()
    for _ in range(rng.randrange(3)):
        made.function()
    has_handler = made.chance(70)
    if has_handler:
        made.handler()
    made.main(has_handler)
    return '\n'.join(made.text) + '\n'


def jobs(show, count, seed):
    for at in range(seed, seed + count):
        yield show, 'random program %d' % at, text_of(random.Random('outlines %d' % at)), at


def main():
    show, count, seed, processes = sys.argv[1], int(sys.argv[2]), int(sys.argv[3]), int(sys.argv[4])
    status = told('outlines', results(processes, one, jobs(show, count, seed), 4))
    if processes == 0:
        tell_unreached('outlines')
    return status


if __name__ == '__main__':
    sys.exit(main())
