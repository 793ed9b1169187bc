"""Evaluates the clauses of the headline over bounded runs of built images, and over images and maps that are made wrong. Arguments: the
program picc_show, how many random programs, the seed, how many processes (0: none but this one, and what was never reached is told), of
how many programs one has a long run, and the files of programs.

A program has a run without arrivals, and one with arrivals at random moments, or two of these if it has a handler. One that comes to
rest, and one of so many others, has a long run without arrivals, since `pace` says something only of 8,192 instructions and more."""
import os
import random
import subprocess
import sys
import tempfile
import traceback
from collections import Counter

import programs
from clauses import RUN_CLAUSES, Run, random_start
from code_text import Shown
from definitions import random_inputs, random_pairs, script_text
from jobs import results, tell_unreached, told
from machines import FLAGS
from map_clauses import MAP_CLAUSES, Built
from wrong import SUMS, UNDEFINED, WRONG, refused_at

# A run has so many moments; fewer where the source goes on while the chip makes no event, as in a loop that waits, since the source runs
# of a run, one for each stretch between arrivals, are to take about so many micro-steps together.
MOMENTS, FIRST_MOMENTS, LEAST_MOMENTS = 1000, 250, 100
MICRO_STEPS, STRETCHES = 25000, 8
# Long enough for two steps behind a place in the trace, and for three where nothing goes on. A program has none beside which the source
# would take more micro-steps than this.
LONG, LONG_AT_REST, LONG_MICRO_STEPS = 3 * 8192 + 300, 4 * 8192 + 300, 80000
BEHIND_REST = 60
# objects of several bytes, each with another initial value, and a pointer among them
INITIAL = ('unsigned char a[3]={5,6,7};unsigned char*p=a;unsigned int w=0x1234;struct s{char c;long l;};struct s v={1,-2};'
           'void main(void){PORTB=*p;w++;a[2]=v.c;v.l=w;}')
FAR = 10 ** 9


class Fails(Exception):
    """A clause that fails, and where."""


def built_of(show, text):
    """The program that a text is built to, or None where it is refused."""
    with tempfile.NamedTemporaryFile('w', suffix='.c', encoding='latin-1') as file:
        file.write(text)
        file.flush()
        ran = subprocess.run([show, 'code', file.name], stdout=subprocess.PIPE, timeout=120)
    if ran.returncode not in (0, 1):
        raise OSError('picc_show ends with %d' % ran.returncode)
    return Built(Shown(ran.stdout.decode('latin-1'))) if ran.returncode == 0 else None


def checked(built, rng, inputs, pairs, last, tally):
    """A run of which all clauses hold."""
    run = Run(built, random_start(rng), inputs, pairs, last)
    for name, clause in RUN_CLAUSES.items():
        place = clause(run)
        if place is not None:
            raise Fails('%s fails at %r in a run of %d moments' % (name, place, last))
    tally['runs'] += 1
    tally['instructions'] += last
    tally['events'] += run.length_at(last)
    tally['clean runs' if run.clean == last else 'runs that are clean up to some moment'] += 1
    tally['runs in which the handler ran'] += any(moment.handling for moment in run.moments)
    return run


def random_arrivals(rng, most, last):
    """Arrivals before a moment, in any order, one of them twice; one behind the last moment, and one far beyond it."""
    pairs = random_pairs(rng, most)
    pairs += [rng.choice(pairs)] + [(last + rng.randrange(1, beyond), rng.choice(FLAGS)) for beyond in (10, FAR)]
    rng.shuffle(pairs)
    return pairs


def moments_for(run, runs):
    """How many moments a run has beside which the source runs so often, by what its one run took beside this one."""
    steps = len(run.source_at(run.last).lengths)
    return max(LEAST_MOMENTS, min(MOMENTS, MICRO_STEPS * run.last // (steps * runs)))


def without_arrivals(built, rng, inputs, is_long, tally):
    """The runs in which nothing arrives. The answer is the longest of those that aren't long."""
    run = checked(built, rng, inputs, [], FIRST_MOMENTS, tally)
    steps, more = len(run.source_at(FIRST_MOMENTS).lengths), moments_for(run, 1)
    if not run.rests and more > FIRST_MOMENTS:
        run = checked(built, rng, inputs, [], more, tally)
    if run.rests or (is_long and steps * LONG // FIRST_MOMENTS < LONG_MICRO_STEPS):
        checked(built, rng, inputs, [], LONG_AT_REST if run.rests else LONG, tally)
        tally['long runs'] += 1
    return run


def run_all(built, rng, is_long, tally):
    """What the map has to be, and all runs of a program. The script of a run that fails is told with it."""
    for name, clause in MAP_CLAUSES.items():
        place = clause(built)
        if place is not None:
            raise Fails('%s fails at %r' % (name, place))
    inputs, pairs = random_inputs(rng), []
    try:
        quiet = without_arrivals(built, rng, inputs, is_long, tally)
        last = moments_for(quiet, STRETCHES)
        for _ in range(1 if built.shown.handler is None else 2):
            pairs = random_arrivals(rng, quiet.busy + BEHIND_REST if quiet.rests else last, last)
            checked(built, rng, inputs, pairs, last, tally)
    except Fails as error:
        raise Fails('%s\n%s' % (error, script_text(inputs, pairs).strip())) from None


def program(show, label, text, seed, is_long):
    """Checks a program. The answer: a tally, and what fails."""
    built, tally = built_of(show, text), Counter()
    if built is None:
        return {'refused texts': 1}, None
    tally['programs'] += 1
    try:
        run_all(built, random.Random(seed), is_long, tally)
    except Fails as error:
        return tally, '%s: %s\n%s' % (label, error, text)
    return tally, None


def wrong(show, label, number):
    """Checks that what is made wrong is refused by its clause."""
    made = WRONG[number]
    place, runs = refused_at(made, built_of(show, made.text), random.Random(number))
    if place is None:
        return {}, '%s: %s does not refuse it in %d runs' % (label, made.clause, runs)
    return {'wrong images and maps refused': 1}, None


def unclean(show, label):
    """Checks that a run is clean up to some moment before an undefined step shows, and not beyond."""
    run = Run(built_of(show, UNDEFINED), random_start(random.Random(0)), (), [], MOMENTS)
    events = run.length_at(run.clean)
    return {}, None if 0 <= run.clean < MOMENTS and events <= 1 else '%s: the run is clean up to moment %d' % (label, run.clean)


def one(job):
    """Does a job, which is a function with its arguments."""
    function, show, label, *arguments = job
    try:
        return function(show, label, *arguments)
    except Exception as error:      # a definition without a clause for what came
        return {}, '%s: %r\n%s' % (label, error, traceback.format_exc(limit=-3))


def jobs(show, count, seed, long, files):
    for number, made in enumerate(WRONG):
        yield wrong, show, made.what, number
    yield unclean, show, 'a program with an undefined step'
    texts = []
    for name in files:
        with open(name, encoding='latin-1') as file:
            texts.append((os.path.basename(name), file.read()))
    texts += [('random program %d' % (seed + at), programs.program(random.Random(seed + at))) for at in range(count)]
    texts += [('a sum with a handler', SUMS), ('initial values', INITIAL)]
    for at, (label, text) in enumerate(texts):
        yield program, show, label, text, seed + at, at % long == long // 2


def main():
    show, count, seed, processes, long = sys.argv[1], *map(int, sys.argv[2:6])
    status = told('headline', results(processes, one, jobs(show, count, seed, long, sys.argv[6:]), 1))
    if processes == 0:
        tell_unreached('headline', 'headline')
    return status


if __name__ == '__main__':
    sys.exit(main())
