"""What the headline says of a map without a run: the clauses `words`, `mapped`, `main`, `halt`, `apart` and `clear_of_objects` of `IsFaithful`
(crates/headline, specs/Headline.antt). Each is a function of a built program that tells where the clause fails, or None.

The definitions that compute are run. Those that speak of all chains of calls or of all addresses are said again here, over the finite
graph and the 512 addresses of data memory: Reaches and IsLevel (c_typed, Chains), AreCopies (call_graph, Copies), MayBeLive (live_frames,
Together), Stands (live_frames, Memory) and IsPlacing (ram_place, Placement)."""
from interpreter import definition, value
from library import Record

CALLS, COPIES, MEMORY, PLACEMENT = (
    'Rattle.%s' % path for path in ('c_typed.specs.Chains', 'call_graph.specs.Copies', 'live_frames.specs.Memory', 'ram_place.specs.Placement'))
CODE_WORDS = 0x2000
DATA_ADDRESSES = 512
ROOTS = ('Main',), ('Isr',)


class Calls:
    """The call graph of a program, each function and helper under its number."""

    def __init__(self, program):
        self.functions = len(program.functions)
        self.rows = definition(CALLS, 'graph_of')(program)
        self.reached = {}

    def number(self, copy):
        return definition(CALLS, 'number_of')(self.functions, copy.function)

    def from_(self, number):
        """All that this one reaches, itself among them."""
        if number not in self.reached:
            found, waiting = set(), [number]
            while waiting:
                here = waiting.pop()
                if here not in found:
                    found.add(here)
                    waiting += self.rows[here]
            self.reached[number] = found
        return self.reached[number]

    def level(self, root, number):
        """The length of the longest chain from a root, which nothing calls in a circle."""
        callers = [f for f in self.from_(root) if number in self.rows[f]]
        return max((1 + self.level(root, f) for f in callers), default=0)

    def copies(self, program):
        """The copies that the program has, in the order of placing: each one's root and number."""
        found = []
        for root in ROOTS:
            entered = definition(COPIES, 'root_of')(program, root)
            for number in self.from_(entered[1]) if entered[0] == 'Some' else ():
                found.append((definition(COPIES, 'root_place')(root), self.level(entered[1], number), number, root))
        return [(root, number) for _, _, number, root in sorted(found)]

    def may_be_live(self, a, b):
        one, other = self.number(a), self.number(b)
        return a.root != b.root or other in self.from_(one) or one in self.from_(other)


def bytes_of(line):
    """The addresses that a line of the map covers."""
    covers = definition(MEMORY, 'covers')
    return {x for x in range(DATA_ADDRESSES) if covers(line.address, line.size, x)}


def place_for(taken, size):
    """The lowest address in the first region where so many bytes are free; what has none stands at 20h."""
    if size == 0:
        return 0x20
    for region in value(MEMORY, 'regions'):
        for address in range(region.address, region.address + region.size - size + 1):
            if taken.isdisjoint(range(address, address + size)):
                return address
    return None


def words(built):
    is_modelled, row_of = definition('Rattle.pic_chip.specs.Instructions', 'is_modelled'), definition('Rattle.pic_isa.specs.Lookup', 'row_of')
    known = {word: is_modelled(row_of(word)) for word in set(built.image)}
    return next((at for at in range(CODE_WORDS) if not known[built.image[at]]), None)


def mapped(built):
    calls, content = Calls(built.program), built.content
    if [(copy.root, calls.number(copy)) for copy in built.copies] != calls.copies(built.program):
        return 'copies'
    if (len(content.objects), len(content.frames)) != (len(built.program.statics), len(built.copies)):
        return 'lines'
    return misplaced_object(built) or misplaced_frame(built, calls)


def misplaced_object(built):
    taken, line_of = set(), definition(PLACEMENT, 'object_line')
    for static, line in zip(built.program.statics, built.content.objects):
        if line != line_of(built.program, static, line.address) or line.address != place_for(taken, line.size):
            return 'object', bytes(line.name)
        taken |= bytes_of(line)
    return None


def misplaced_frame(built, calls):
    line_of, frames = definition(PLACEMENT, 'frame_line'), built.content.frames
    objects = set().union(*map(bytes_of, built.content.objects))
    for at, (copy, line) in enumerate(zip(built.copies, frames)):
        live = [bytes_of(other) for earlier, other in zip(built.copies, frames[:at]) if calls.may_be_live(earlier, copy)]
        if line != line_of(built.program, copy, line.address) or line.address != place_for(objects.union(*live), line.size):
            return 'frame', bytes(line.name)
    return None


def main(built):
    return None if built.content.main < CODE_WORDS else built.content.main


def halt(built):
    return None if built.content.halt < CODE_WORDS else built.content.halt


def apart(built):
    calls, frames = Calls(built.program), [bytes_of(line) for line in built.content.frames]
    for i, one in enumerate(built.copies):
        for j, other in enumerate(built.copies):
            if i != j and calls.may_be_live(one, other) and not frames[i].isdisjoint(frames[j]):
                return i, j
    return None


def clear_of_objects(built):
    objects = set().union(*map(bytes_of, built.content.objects))
    return next((bytes(line.name) for line in built.content.frames if not objects.isdisjoint(bytes_of(line))), None)


MAP_CLAUSES = {'words': words, 'mapped': mapped, 'main': main, 'halt': halt, 'apart': apart, 'clear_of_objects': clear_of_objects}


class Built:
    """A program as it was built: its typed tree, its image, and the content of its map."""

    def __init__(self, shown):
        self.shown, self.program, self.image, self.copies = shown, shown.program, shown.image, tuple(shown.copies)
        frames = tuple(Record(root=c.root, name=c.name, address=c.address, size=c.size) for c in shown.copies)
        self.content = Record(main=shown.main, halt=shown.halt, objects=tuple(shown.objects), frames=frames)
        self.nodes = definition('Rattle.c_typed.specs.TreeNodes', 'nodes_of')(self.program)
        initial_from = definition('Rattle.headline.specs.SourceOf', 'initial_from')
        self.initial = initial_from(self.program, self.content, 0, self.program.statics)

    def changed(self, image=None, **lines):
        """The same program with another image, or other lines of its map."""
        made = Built.__new__(Built)
        made.__dict__.update(self.__dict__)
        made.image = self.image if image is None else image
        made.content = self.content.updated(**lines)
        return made
