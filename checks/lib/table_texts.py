"""Random C programs in which const tables are read by functions, one for each table: `unsigned char read_t1(unsigned int k) { return t1[k]; }`.
No other function names a table. Main, the handler and functions call them, also in the index of another read; now and then with an
index behind the table's end. A table may be meant to be longer than it is declared, and than data memory is: the text is then one to be
run with more bytes in that table."""
from programs import PORTS, Program

CHARS = ['char', 'signed char', 'unsigned char', 'unsigned char']
SIZES = [1, 2, 3, 4, 8, 10, 16, 21]
LONG_SIZES = [255, 256, 257, 300, 700]
FRONT = 'read_'


class Texts(Program):
    """A program of these. `tables` are the pairs of a name and the size that is meant; only some programs read behind a table's end."""

    def __init__(self, random):
        super().__init__(random)
        self.tables, self.nested, self.wild = [], 0, self.chance(25)

    def table(self):
        name, ty, size = self.fresh('t'), self.pick(CHARS), self.pick(SIZES)
        values = ','.join(str(self.random.randrange(-20 if ty != 'unsigned char' else 0, 128)) for _ in range(1 + self.random.randrange(size)))
        words = self.pick(['const', 'const', 'static const', 'const volatile'])
        self.text.append('%s %s %s[%d] = {%s};' % (words, ty, name, size, values))
        self.text.append('%s%s %s%s(unsigned int k) { return %s[k]; }' % (self.pick(['', 'static ']), ty, FRONT, name, name))
        self.tables.append((name, self.pick(LONG_SIZES) if self.chance(40) else size))

    def index_of(self, scope, size):
        """An index that lies in the table nearly always."""
        way = self.random.randrange(100)
        if self.wild and way < 8:
            return self.pick([str(size), str(size + self.random.randrange(300)), '-1', '65535u', self.expression(scope, 1)])
        if way < 20:
            return str(self.random.randrange(size))
        index = self.read(scope) if way < 45 and self.nested < 2 else self.factor(scope, 1)
        if size & (size - 1) == 0:
            return '%s&%d' % (index, size - 1)
        return '(unsigned %s)%s%%%d' % ('char' if size < 256 else 'int', index, size)

    def read(self, scope):
        name, size = self.pick(self.tables)
        self.nested += 1
        made = '%s%s(%s)' % (FRONT, name, self.index_of(scope, size))
        self.nested -= 1
        return made

    def leaf(self, scope):
        return self.read(scope) if self.nested < 2 and self.chance(20) else super().leaf(scope)

    def statement(self, scope, depth, indent):
        """What a program says of a table: a byte of it goes to a port, or all of them do."""
        pad = '    ' * indent
        if not self.chance(20):
            return super().statement(scope, depth, indent)
        if self.in_handler or self.chance(60):
            return ['%s%s = %s;' % (pad, self.pick(PORTS), self.read(scope))]
        (name, size), i = self.pick(self.tables), self.fresh('i')
        loop = 'for (%s = 0; %s < %d; %s++) %s = %s%s(%s);' % (i, i, min(size, 5), i, self.pick(PORTS), FRONT, name, i)
        return ['%s{ unsigned char %s; %s }' % (pad, i, loop)]


def text(random):
    """The text of a program, and how many bytes are meant to be in each table by its name."""
    made = Texts(random)
    for _ in range(1 + random.randrange(3)):
        made.table()
    if made.chance(40):
        made.tag()
    made.statics()
    for _ in range(random.randrange(3)):
        made.function()
    has_handler = made.chance(70)
    if has_handler:
        made.handler()
    made.main(has_handler)
    return '\n'.join(made.text) + '\n', dict(made.tables)
