"""The values of the language of specifications in Python, and the definitions of the standard library that the project's definitions name,
each with the meaning that it has there (rattle/core/specs of the toolchain)."""
import functools
import itertools


# ---- values
class Record:
    """A record. It is never changed, so its hash is kept."""
    __slots__ = ('__dict__', '_hash')

    def __init__(self, **fields):
        self.__dict__.update(fields)

    def updated(self, **fields):
        made = Record.__new__(Record)
        made.__dict__.update(self.__dict__)
        made.__dict__.update(fields)
        return made

    def __eq__(self, other):
        return isinstance(other, Record) and self.__dict__ == other.__dict__

    def __hash__(self):
        try:
            return self._hash
        except AttributeError:
            self._hash = hash(tuple(sorted(self.__dict__.items())))
            return self._hash

    def __repr__(self):
        return 'record { ' + '; '.join('%s = %r' % field for field in self.__dict__.items()) + ' }'


class Function:
    """A function of so many arguments, of which it may have some already."""
    __slots__ = ('count', 'body', 'given')

    def __init__(self, count, body, given=()):
        self.count, self.body, self.given = count, body, given

    def __call__(self, *arguments):
        return applied(self, *arguments)


def applied(function, *arguments):
    """A function applied to one argument after the other."""
    while True:
        have = function.given + arguments if function.given else arguments
        count = function.count
        if len(have) < count:
            return Function(count, function.body, have)
        if len(have) == count:
            return function.body(*have)
        function, arguments = function.body(*have[:count]), have[count:]


class Memory(Function):
    """A memory as a table. What isn't in the table, the first memory tells."""
    __slots__ = ('table', 'first')

    def __init__(self, count, table, first):
        super().__init__(count, self.at if count == 1 else self.at_pair)
        self.table, self.first = table, first

    def at(self, place):
        return self.table[place] if place in self.table else self.first(place)

    def at_pair(self, thing, offset):
        return self.table[thing, offset] if (thing, offset) in self.table else self.first(thing, offset)

    def written(self, *place_and_byte):
        place, byte = place_and_byte[:-1], place_and_byte[-1]
        table = dict(self.table)
        table[place if len(place) > 1 else place[0]] = byte
        return Memory(self.count, table, self.first)


class Rest:
    """What is left of a long list behind its first items. It has no copy of them, so a definition that goes over a text byte by byte
    doesn't hold one for each byte. It is equal to the tuple of the same items."""
    __slots__ = ('items', 'at')

    def __init__(self, items, at):
        self.items, self.at = items, at

    def __len__(self):
        return len(self.items) - self.at

    def __getitem__(self, key):
        if isinstance(key, slice):
            first, last, _ = key.indices(len(self))
            return self.items[self.at + first:self.at + last]
        return self.items[self.at + key]

    def __iter__(self):
        return itertools.islice(self.items, self.at, None)

    def __eq__(self, other):
        return self[:] == (other[:] if isinstance(other, Rest) else other)

    def __hash__(self):
        return hash(self[:])

    def __add__(self, other):
        return self[:] + (other[:] if isinstance(other, Rest) else other)

    def __radd__(self, other):
        return other + self[:]

    def __repr__(self):
        return repr(self[:])


def rest_of(items):
    """A list without its first item."""
    if isinstance(items, Rest):
        return Rest(items.items, items.at + 1)
    return items[1:] if len(items) < 100 else Rest(items, 1)


NONE = ('None',)


def some(value):
    return ('Some', value)


# ---- the standard library
def quotient(a, b):
    """A quotient that is rounded toward zero."""
    return abs(a) // abs(b) if (a < 0) == (b < 0) else -(abs(a) // abs(b))


def replaced(items, at, item):
    return items[:at] + (item,) + items[at + 1:] if at < len(items) else items


def position_from(test, number, items):
    """The number of the first item that passes a test, where the first one of the list has this number."""
    return next((some(i) for i, x in enumerate(items, number) if applied(test, x)), NONE)


def pointwise(test, xs, ys):
    """Whether two lists are equally long, and each two items at one place pass a test."""
    return len(xs) == len(ys) and all(applied(test, x, y) for x, y in zip(xs, ys))


CONSTANTS = {'true': True, 'false': False, 'zero': 0, 'None': NONE}
STANDARD = {
    'nat_eq': (2, lambda a, b: a == b), 'nat_lt': (2, lambda a, b: a < b), 'nat_le': (2, lambda a, b: a <= b),
    'eqb': (2, lambda a, b: a == b), 'ltb': (2, lambda a, b: a < b), 'leb': (2, lambda a, b: a <= b),
    'int_eq': (2, lambda a, b: a == b), 'int_lt': (2, lambda a, b: a < b), 'int_le': (2, lambda a, b: a <= b),
    'int_div': (2, quotient), 'int_rem': (2, lambda a, b: a - b * quotient(a, b)), 'int_rem_euclid': (2, lambda a, b: a % b),
    'int_shr': (2, lambda a, b: a >> b), 'neg_ℤ': (1, lambda a: -a), 'unsigned_abs': (1, abs),
    'pos': (1, lambda n: n), 'negsuc': (1, lambda n: -n - 1), 'suc': (1, lambda n: n + 1),
    'min': (2, min), 'max': (2, max), 'sum': (1, sum), 'not': (1, lambda b: not b),
    'bit_or': (2, lambda a, b: a | b), 'bit_and': (2, lambda a, b: a & b), 'bit_xor': (2, lambda a, b: a ^ b),
    'length': (1, len), 'drop': (2, lambda n, xs: xs[n:]), 'take': (2, lambda n, xs: xs[:n]), 'replicate': (2, lambda n, x: (x,) * n),
    'slice_get': (2, lambda xs, i: some(xs[i]) if i < len(xs) else NONE),
    'slice_index': (2, lambda xs, i: xs[i] if i < len(xs) else 0),
    'slice_index_or': (3, lambda xs, i, other: xs[i] if i < len(xs) else other),
    'slice_set': (3, replaced), 'bytes_eq': (2, lambda xs, ys: xs == ys), 'codes': (1, lambda text: text),
    'map': (2, lambda f, xs: tuple(applied(f, x) for x in xs)),
    'Ok': (1, lambda value: ('Ok', value)), 'Err': (1, lambda error: ('Err', error)),
    'fold': (3, lambda f, start, xs: functools.reduce(lambda made, x: applied(f, made, x), xs, start)),
    'prefix_len': (2, lambda f, xs: next((i for i, x in enumerate(xs) if not applied(f, x)), len(xs))),
    'decimal': (1, lambda n: tuple(str(n).encode())),
    'Some': (1, some), 'is_some': (1, lambda option: option[0] == 'Some'),
    'option_to_list': (1, lambda option: option[1:]),
    'flat_map': (2, lambda f, xs: tuple(itertools.chain.from_iterable(applied(f, x) for x in xs))),
    'position': (2, lambda f, xs: position_from(f, 0, xs)), 'position_from': (3, position_from),
    'find': (2, lambda f, xs: next((some(x) for x in xs if applied(f, x)), NONE)),
    'option_or': (2, lambda first, second: first if first[0] == 'Some' else second),
    'pointwise': (3, pointwise), 'starts_with': (3, lambda equal, xs, needle: pointwise(equal, needle, xs[:len(needle)])),
    'slice_range': (3, lambda xs, begin, end: xs[begin:end]),
    'list_any': (2, lambda f, xs: any(applied(f, x) for x in xs)), 'list_all': (2, lambda f, xs: all(applied(f, x) for x in xs)),
    'get_or': (3, lambda xs, i, other: xs[i] if i < len(xs) else other),
    'option_map': (2, lambda f, option: some(applied(f, option[1])) if option[0] == 'Some' else NONE),
}
