"""The clauses of the headline that speak of runs (`Follows` of crates/headline, specs/Headline.antt), each evaluated over one run of a built
image, from reset up to a last moment.

What computes is the repository's own: the moments of the chip (pic_chip, Run), which flags arrive (pic_world, Arrivals), the schedule
that is read off (schedule, Off), the steps of the source and which of them count (src_rules), its events as the map shows them
(src_memory, Shown), initial bytes (headline, SourceOf), last values and guarded frames (headline, Headline). What only states is said
again here, over the moments of the run: IsClean, IsFrontOf, ComesTo, HasNext, IsQuiet, and each field of Follows.

A clause is a function of a run that tells the first place where it fails, as the moment and what else the clause speaks of, or None."""
from bisect import bisect_left, bisect_right

from interpreter import definition
from library import Function, Record
from machines import Source, arrivals_of

CHIP, HEAD, STEPS = 'Rattle.pic_chip.specs.', 'Rattle.headline.specs.', 'Rattle.src_rules.specs.'
STEP_INSTRUCTIONS = 8192
START_INSTRUCTIONS = 4096
STACK_WORDS = 8
LONGEST_PERIOD = 4      # an end, or an idle loop, takes so many instructions at most


class SourceRun(Source):
    """The run of the source as the headline sees it (`run_of`), as far as it was asked for. `lengths` and `taken` have, for each number
    of micro-steps, the length of the trace and how many of them counted. It ends before a micro-step that is undefined, or where
    there is none; behind that end its trace and its count stay."""

    def __init__(self, shown, inputs, schedule):
        super().__init__(shown, inputs, schedule)
        self.is_undefined = definition(HEAD + 'SourceOf', 'is_undefined')
        self.gone, self.is_taken = definition(STEPS + 'Runs', 'gone'), definition(STEPS + 'Runs', 'is_taken')
        self.lengths, self.taken = [0], [0]

    def step(self):
        outcome = self.step_of(self.setting, self.state)
        if not self.is_taken(outcome):
            self.end = 'undefined' if self.is_undefined(outcome) else 'rests'
            return
        self.counted += self.counts(self.setting, self.state)
        self.state = self.gone(self.state, outcome)
        self.flat()
        self.noted(self.state.world.trace, self.show, self.counted)
        self.lengths.append(len(self.events))
        self.taken.append(self.counted)

    def go_on(self, wanted):
        """Takes micro-steps while there are some, and this holds of the length of the trace and of the steps that counted."""
        while self.end == 'goes' and wanted(self.lengths[-1], self.taken[-1]):
            self.step()

    def is_defined_within(self, steps, length):
        """No micro-step is undefined before which fewer steps counted, and the trace is no longer than this."""
        self.go_on(lambda long, taken: taken < steps and long <= length)
        return not (self.end == 'undefined' and self.taken[-1] < steps and self.lengths[-1] <= length)


class Run:
    """A run of the chip over a built image, from a start, input bytes and arrivals, up to a last moment, and the source runs beside it.
    `rests` says whether it repeats itself at the end, and `busy` up to which moment it didn't."""

    def __init__(self, built, start, inputs, pairs, last):
        self.built, self.last, self.inputs, self.arrivals, self.sources = built, last, inputs, arrivals_of(pairs), {}
        setting_of = definition(HEAD + 'OnChip', 'setting_of')
        self.setting = setting_of(built.content, built.image, start, inputs, self.arrivals)
        self.moments, self.masks = self.run()
        self.traces = Function(1, lambda n: self.moments[n].trace)
        self.clean = self.last_clean()

    def run(self):
        """All moments up to the last one, and the flags that arrive at each. Where one is as one shortly before it, and nothing arrived since,
        the run repeats itself until something arrives."""
        g, next_moment = self.setting, definition(CHIP + 'Run', 'next_moment')
        arriving, times = definition('Rattle.pic_world.specs.Arrivals', 'arriving'), {a.t for a in self.arrivals}
        moments, masks, since, period = [definition(CHIP + 'Run', 'first_moment')(g)], [], 0, 0
        for n in range(self.last + 1):
            masks.append(arriving(self.arrivals, n) if n in times else 0)
            if masks[n]:
                since, period = n + 1, 0
            if period:
                moments.append(moments[n + 1 - period])
            else:
                moments.append(next_moment(g.image, g.inputs, g.watch, masks[n], moments[n]))
                period = next((p for p in range(1, LONGEST_PERIOD + 1) if n + 1 - p >= since and moments[n + 1 - p] == moments[n + 1]), 0)
                self.busy = n + 1
        self.rests = period > 0
        return moments[:-1], masks

    def length_at(self, n):
        return len(self.moments[n].trace)

    def source_at(self, n):
        """The source run whose handler is called where the arrivals up to moment n fall in the chip's trace."""
        schedule = tuple((a.t, a.flag[0]) for a in definition('Rattle.schedule.specs.Off', 'read_off')(self.traces, n, self.arrivals))
        if schedule not in self.sources:
            self.sources[schedule] = SourceRun(self.built.shown, self.inputs, schedule)
        return self.sources[schedule]

    def stretches(self):
        """The first and the last moment of each stretch up to the last moment in which nothing arrives behind the first."""
        begins = sorted({0} | {a.t for a in self.arrivals if a.t <= self.last})
        return list(zip(begins, [begin - 1 for begin in begins[1:]] + [self.last]))

    def counts_defined(self, n):
        """No step is undefined that counts for moment n."""
        return self.source_at(n).is_defined_within((n + 1) * self.built.nodes, self.length_at(n))

    def last_clean(self):
        """Up to which moment the run is clean; -1 where it is so at none. Within a stretch the source run is the same, and what counts for
        a moment counts for a later one."""
        for begin, end in self.stretches():
            if not self.counts_defined(end):
                return next(n for n in range(begin, end + 1) if not self.counts_defined(n)) - 1
        return self.last

    def clean_moments(self):
        return range(self.clean + 1)


def prefix(run):
    for n in run.clean_moments():
        source, trace = run.source_at(n), run.moments[n].trace
        source.go_on(lambda long, taken: long < len(trace))
        if tuple(source.events[:len(trace)]) != tuple(trace):
            return n
    return None


def has_next(run, n, length, steps):
    """From where the source's trace comes to this length on, the events of so many steps stand in the chip's trace at moment n."""
    source, trace = run.source_at(n), tuple(run.moments[n].trace)
    source.go_on(lambda long, taken: long < length)
    here = bisect_left(source.lengths, length)
    if here == len(source.lengths) or source.lengths[here] != length:
        return False
    most = source.taken[here] + steps
    source.go_on(lambda long, taken: taken <= most)
    made = source.lengths[bisect_right(source.taken, most) - 1]
    return tuple(source.events[:made]) == trace[:made]


def pace(run):
    """Of the moments of one length of the trace in a stretch the first one says most, and for it the earliest moment that is far enough."""
    for begin, end in run.stretches():
        seen = set()
        for t in range(begin, min(end, run.clean) + 1):
            if run.length_at(t) in seen:
                continue
            seen.add(run.length_at(t))
            for steps in range((min(end, run.clean) - t) // STEP_INSTRUCTIONS):
                n = t + STEP_INSTRUCTIONS * (steps + 1)
                if not has_next(run, n, run.length_at(t), steps):
                    return n, t, steps
    return None


def end_state(run):
    """The last values are carried from one moment to the next: those of a longer trace are made from those of its front."""
    last_written, byte_at = definition(HEAD + 'Headline', 'last_written'), definition(CHIP + 'Address', 'byte_at')
    held = {(i, k): run.built.initial[i][k] for i, line in enumerate(run.built.content.objects) if not line.constant for k in range(line.size)}
    length, looked_at = 0, None
    for n in run.clean_moments():
        moment = run.moments[n]
        more, length = moment.trace[length:], len(moment.trace)
        if more:
            held = {(i, k): last_written(i, k, byte, more) for (i, k), byte in held.items()}
        if not moment.met or (not more and moment.state.ram is looked_at):
            continue
        looked_at = moment.state.ram
        for (i, k), byte in held.items():
            if byte_at(moment.state, run.built.content.objects[i].address + k) != byte:
                return n, i, k
    return None


def no_underflow(run):
    return next((n for n in run.clean_moments() if run.moments[n].state.pops > run.moments[n].state.pushes), None)


def no_overflow(run):
    return next((n for n in run.clean_moments() if run.moments[n].state.pushes > run.moments[n].state.pops + STACK_WORDS), None)


def frames(run):
    is_handling, is_guarded = definition(CHIP + 'Run', 'is_handling'), definition(HEAD + 'Headline', 'is_guarded')
    byte_at = definition(CHIP + 'Address', 'byte_at')
    for n in range(run.clean):
        before, behind = run.moments[n], run.moments[n + 1]
        if not before.met or before.state.ram is behind.state.ram:
            continue
        handling = is_handling(run.masks[n], before)
        for line in run.built.content.frames:
            if is_guarded(handling, line.root):
                for address in range(line.address, line.address + line.size):
                    if byte_at(before.state, address) != byte_at(behind.state, address):
                        return n, bytes(line.name), address - line.address
    return None


def start_up(run):
    """Once met, main's address stays met, so a run that has met it says enough, and another one has to be long enough."""
    if run.last < START_INSTRUCTIONS and not run.moments[-1].met:
        raise ValueError('main is not met, and the run has less than %d instructions' % START_INSTRUCTIONS)
    at = min(run.last, START_INSTRUCTIONS)
    return None if run.moments[at].met else at


def no_early_access(run):
    return next((n for n, moment in enumerate(run.moments) if moment.early), None)


RUN_CLAUSES = {
    'prefix': prefix, 'pace': pace, 'end_state': end_state, 'no_underflow': no_underflow, 'no_overflow': no_overflow, 'frames': frames,
    'start_up': start_up, 'no_early_access': no_early_access}


def random_start(rng):
    """What is unknown after power-on."""
    return Record(w=rng.randrange(256), fsr=rng.randrange(256), flags=rng.randrange(8), ram=tuple(rng.randrange(256) for _ in range(368)))
