"""The machines of the definitions, over what picc_show tells of a program: the source, byte code, symbolic code and the chip. Each is
run a step at a time, and keeps at which step each event of its trace was made, and what had been counted by then."""
import functools

from interpreter import declared, definition, value
from library import Function, Memory, NONE, Record, some

SOURCE, MEMORY, CORE, SYM, CHIP, WORLD = (
    'Rattle.%s.specs.' % crate for crate in ('src_rules', 'src_memory', 'core_code', 'sym_code', 'pic_chip', 'pic_world'))
FLAGS = tuple(declared(WORLD + 'declared.Flag'))


def arrivals_of(pairs):
    return tuple(Record(t=t, flag=(flag,)) for t, flag in pairs)


def outside_of(inputs, pairs):
    """What comes from outside, for pairs of a trace's length and a flag."""
    return definition(WORLD + 'World', 'outside_of')(inputs, arrivals_of(pairs))


class Machine:
    """A run. `events` is the trace as the map shows it, `marks` has for each event what was counted when it was made, `moments` for each
    step the length of the trace and what was counted behind it; `end` is 'goes', 'still', 'stuck', or an undefined step with its
    kind and line."""

    def __init__(self):
        self.steps, self.end, self.events, self.marks, self.moments = 0, 'goes', [], [], []

    def run(self, most_steps, most_events):
        while self.end == 'goes' and self.steps < most_steps and len(self.events) < most_events:
            self.step()
            self.steps += 1
        return self

    def counted(self, name):
        """What was counted under this name at the start and at each event, where several counts are kept."""
        k = self.names.index(name)
        return [0] + [mark[k] for mark in self.marks]

    def noted(self, trace, show, count):
        for event in trace[len(self.events):]:
            self.events.append(show(event))
            self.marks.append(count)
        self.moments.append((len(trace), count))

    def flat(self):
        """Memory as a table, where a step made it of a function."""
        m = self.state.memory
        if not isinstance(m, Memory):
            table = {k: m(*k) for k in self.keys} if self.first.count == 2 else {k: m(k) for k in self.keys}
            self.state = self.state.updated(memory=Memory(self.first.count, table, self.first))


def function_memory(n, m):
    """The first memory, as a function of so many arguments."""
    return Function(n, lambda *key: m(*key))


class Source(Machine):
    def __init__(self, shown, inputs, pairs):
        super().__init__()
        self.setting = Record(program=shown.program, outside=outside_of(inputs, pairs))
        self.step_of, self.counts = definition(SOURCE + 'Step', 'step'), definition(SOURCE + 'Step', 'counts')
        self.weight, self.enters = definition(SOURCE + 'Weights', 'weight'), definition(SOURCE + 'Step', 'enters')
        content = Record(main=shown.main, halt=shown.halt, objects=tuple(shown.objects), frames=tuple(shown.copies))
        address, show = definition(MEMORY + 'Shown', 'address_of'), definition(MEMORY + 'Shown', 'shown')
        where = Function(1, lambda o: address(shown.program, content, o))
        self.show = lambda event: show(where, event)
        self.state = definition(SOURCE + 'Step', 'start')(self.setting)
        self.first = function_memory(2, self.state.memory)
        self.keys = [(('Fixed', n), at) for n, o in enumerate(shown.objects) for at in range(o.size)]
        for copy in shown.copies:
            if copy.function[0] == 'User':
                self.keys += variable_keys(shown.program, copy)
        self.counted, self.light = 0, None
        self.flat()

    def step(self):
        counts = self.counts(self.setting, self.state)
        if counts:
            self.light = None
        else:
            weight = self.weight(self.setting, self.state)
            if self.light is not None and weight >= self.light:
                self.end = ('Weight', ('grows',), weight)
                return
            self.light = weight
        next_ = self.step_of(self.setting, self.state)
        if next_[0] == 'Went':
            self.counted += counts
            self.state = next_[1]
            self.flat()
            self.noted(self.state.world.trace, self.show, self.counted)
        elif next_[0] == 'Idle':
            self.end = 'still'
        else:
            self.end = next_


def variable_keys(program, copy):
    function, own = program.functions[copy.function[1]], Record(root=copy.root, function=copy.function[1])
    size = definition('Rattle.c_typed.specs.Types', 'type_bytes')
    for n, variable in enumerate(function.params + function.locals):
        for at in range(size(program.sizes, variable.ty.ty)):
            yield ('Variable', own, n), at


class Core(Machine):
    """Byte code: that which the definitions make of the typed program, where no other one is given."""

    def __init__(self, shown, inputs, pairs, program=None):
        super().__init__()
        self.setting = Record(program=program or core_program(shown), outside=outside_of(inputs, pairs))
        self.step_of = definition(CORE + 'Machine', 'core_step')
        self.most_of, self.least_of = definition(CORE + 'Cost', 'step_most'), definition(CORE + 'Cost', 'step_least')
        self.show = as_shown(shown)
        self.state = definition(CORE + 'Machine', 'core_start')(self.setting)
        self.first = function_memory(1, self.state.memory)
        self.keys = [('Static', n, at) for n, o in enumerate(shown.objects) for at in range(o.size)]
        self.keys += [('Frame', c, at) for c, copy in enumerate(shown.copies) for at in range(copy.size)]
        self.keys += [('Result', (root,), k) for root in ('Main', 'Isr') for k in range(4)]
        self.names, self.most, self.least = ('most', 'least'), 0, 0
        self.flat()

    def step(self):
        next_ = self.step_of(self.setting, self.state)
        if next_[0] == 'Goes':
            self.most += self.most_of(self.setting, self.state)
            self.least += self.least_of(self.setting, self.state)
            self.state = next_[1]
            self.flat()
            self.noted(self.state.world.trace, self.show, (self.most, self.least))
        else:
            self.end = 'still' if next_[0] == 'Still' else 'stuck'


def core_program(shown):
    """The program of byte code that the definitions make of the typed program and its copies, each part of it worked out once."""
    copies = tuple(Record(root=c.root, function=c.function, level=0) for c in shown.copies)
    made = definition('Rattle.lower_stmt.specs.Programs', 'core_of')(shown.program, copies)
    return Record(**{name: once(part) if isinstance(part, Function) else part for name, part in made.__dict__.items()})


def once(function):
    return Function(function.count, functools.lru_cache(None)(function))


def layout_of(shown):
    return Record(objects=tuple(Record(constant=o.constant, address=o.address, size=o.size) for o in shown.objects),
               frames=tuple(Record(root=c.root, address=c.address, size=c.size) for c in shown.copies))


def as_shown(shown):
    """An event of byte code as the map shows it."""
    layout, held = layout_of(shown), definition(SYM + 'Layout', 'shown')
    return lambda e: ('End',) if e[0] == 'Ended' else (e[0][:-2], e[1], held(layout, e[2]))


def random_registers(random):
    bits = {name: random.randrange(2) for name in ('z', 'dc', 'c', 'rp0', 'rp1', 'irp', 'page_low', 'page_high')}
    return Record(w=random.randrange(256), fsr=random.randrange(256), **bits)


@functools.lru_cache(1)
def marked_prices(shown):
    """By what runs of the code before the pass that makes it leaner are counted: what is marked in the blocks of functions."""
    is_marked, variables = definition(SYM + 'Marks', 'is_marked'), Function(1, lambda c: shown.copies[c].variables)
    functions = {block for block in shown.plain if block[0] == 'Copy' and shown.copies[block[1]].function[0] == 'User'}
    marks = {block: [int(block in functions and is_marked(variables, x)) for x in code] for block, code in shown.plain.items()}
    return {'marked': definition(SYM + 'Cost', 'sure_prices')(Function(2, lambda block, index: marks[block][index]))}


def prices_by(price):
    """By what runs are counted at most, with this price of an instruction, and at least."""
    return {'most': definition(SYM + 'Cost', 'most_prices')(Function(2, price)), 'least': value(SYM + 'Cost', 'least_prices')}


class Symbolic(Machine):
    """Symbolic code with selects or without: given are its blocks, and the prices by which its runs are counted. Before main's first
    instruction statics hold their first bytes, all else anything; and at each entry the handler's registers do."""

    def __init__(self, shown, inputs, pairs, random, blocks, banked, prices):
        super().__init__()
        layout = layout_of(shown)
        program = Record(block=Function(1, lambda name: blocks.get(name, ())), handler=NONE if shown.handler is None else some(shown.handler), layout=layout,
                         tables=value(SYM + 'Programs', 'no_tables'))
        limits = {False: 8, True: 8}
        self.setting = Record(program=program, banked=banked, page_of=Function(1, shown.page_of), limit=Function(1, lambda inside: limits[inside]),
                              leaves=value(SYM + 'Registers', 'no_leaves'))
        self.outside = outside_of(inputs, pairs)
        self.step_of, self.cost_of = definition(SYM + 'Machine', 'sym_step'), definition(SYM + 'Cost', 'step_cost')
        self.show = lambda e: ('End',) if e[0] == 'Ended' else (e[0][:-2], e[1], e[2])
        table = {k: random.randrange(256) for k in range(368)}
        general, address, held = definition(SYM + 'Layout', 'general_at'), definition(SYM + 'Layout', 'address_of'), definition(SYM + 'Layout', 'shown')
        for n, bytes_ in enumerate(shown.first):
            for at, byte in enumerate(bytes_):
                table[general(address(layout, ('Static', n, at)))[1]] = held(layout, byte)
        start = definition(SYM + 'Machine', 'sym_start')
        self.state = start(program, random_registers(random), Memory(1, table, Function(1, lambda k: 0)))
        entries = {}
        self.entry = Function(1, lambda k: entries[k] if k in entries else entries.setdefault(k, random_registers(random)))
        self.names, self.prices, self.costs = tuple(prices), tuple(prices.values()), (0,) * len(prices)

    def step(self):
        next_ = self.step_of(self.setting, self.entry, self.outside, self.state)
        if next_[0] == 'Goes':
            self.costs = tuple(cost + self.cost_of(self.setting, price, self.outside, self.state) for cost, price in zip(self.costs, self.prices))
            self.state = next_[1]
            self.noted(self.state.world.trace, self.show, self.costs)
        else:
            self.end = 'still' if next_[0] == 'Still' else 'stuck'


class Chip(Machine):
    """The chip, from a state after power-on in which all that is unknown is anything. Its step is an instruction."""

    def __init__(self, shown, inputs, pairs, random):
        super().__init__()
        self.image, self.inputs = shown.image, inputs
        ranges = tuple(Record(constant=o.constant, address=o.address, size=o.size) for o in shown.objects)
        self.watch = Record(main=shown.main, halt=shown.halt, ranges=ranges)
        start = Record(w=random.randrange(256), fsr=random.randrange(256), flags=random.randrange(8), ram=tuple(random.randrange(256) for _ in range(368)))
        setting = Record(image=self.image, watch=self.watch, start=start, inputs=inputs, arrivals=arrivals_of(pairs))
        self.moment = definition(CHIP + 'Run', 'first_moment')(setting)
        self.next_moment, self.arriving = definition(CHIP + 'Run', 'next_moment'), definition(WORLD + 'Arrivals', 'arriving')
        self.arrivals, self.times = setting.arrivals, {t for t, _ in pairs}
        self.lengths, self.depth, self.quiet = [0], 0, 0

    def step(self):
        if self.moment.stopped or self.quiet > 300:
            self.end = 'stopped' if self.moment.stopped else 'quiet'
            return
        self.quiet += self.moment.ended and self.steps > max(self.times, default=0)
        mask = self.arriving(self.arrivals, self.steps) if self.steps in self.times else 0
        self.moment = self.next_moment(self.image, self.inputs, self.watch, mask, self.moment)
        self.lengths.append(len(self.moment.trace))
        state = self.moment.state
        if not 0 <= state.pushes - state.pops <= 8:
            self.depth = state.pushes - state.pops
        self.noted(self.moment.trace, lambda e: e, self.steps + 1)

    def length_at(self, t):
        return self.lengths[min(t, len(self.lengths) - 1)]
