"""Random C programs for the compiler, small and mostly defined: every operator and type, structures, arrays, pointers, switches,
loops, calls, helpers of products and shifts, an interrupt handler that shares static objects with main, and device registers."""

TYPES = ['unsigned char', 'unsigned char', 'signed char', 'char', 'unsigned int', 'unsigned int', 'int', 'int', 'short', 'unsigned short', 'unsigned long', 'long']
PORTS = ['PORTB', 'PORTC', 'PORTD', 'TRISB']
BITS = ['RB0', 'RB7', 'RC3', 'RD1']
BINARY = ['+', '-', '*', '&', '|', '^', '==', '!=', '<', '>', '<=', '>=', '&&', '||', '+', '-']
UPDATES = ['+=', '-=', '*=', '&=', '|=', '^=']


class Scope:
    """What can be named: scalars as (name, type), arrays as (name, type, length), pointers as (name, type), structures as (name, tag)."""

    def __init__(self, other=None):
        self.scalars = list(other.scalars) if other else []
        self.arrays = list(other.arrays) if other else []
        self.pointers = list(other.pointers) if other else []
        self.structures = list(other.structures) if other else []
        self.fixed = set(other.fixed) if other else set()


class Program:
    def __init__(self, random):
        self.random = random
        self.tags, self.functions, self.names = [], [], 0
        self.text = []
        self.globals = Scope()
        self.in_loop, self.in_handler, self.in_function, self.budget = 0, False, None, 0

    def chance(self, percent):
        return self.random.randrange(100) < percent

    def pick(self, things):
        return things[self.random.randrange(len(things))]

    def fresh(self, front):
        self.names += 1
        return '%s%d' % (front, self.names)

    # ---- expressions
    def number(self):
        n = self.pick([0, 1, 2, 3, 5, 7, 8, 15, 16, 100, 127, 128, 200, 255, 256, 257, 1000, 32767, 32768, 65535, 65536, 100000, 4294967295])
        if self.chance(50):
            n = self.random.randrange(20)
        return '%d%s' % (n, self.pick(['', '', '', 'u', 'l', 'ul']))

    def place(self, scope, depth):
        """Something that can be assigned: a scalar or an element, a member or what a pointer points to."""
        ways = ['scalar'] * 4 + ['array'] * 2 + ['pointer'] + ['member'] + ['port']
        for _ in range(8):
            way = self.pick(ways)
            free = [s for s in scope.scalars if s[0] not in scope.fixed]
            if way == 'scalar' and free:
                return self.pick(free)[0]
            if way == 'array' and scope.arrays:
                name, _, length = self.pick(scope.arrays)
                if name not in scope.fixed:
                    return '%s[%s]' % (name, self.index(scope, length, depth))
            if way == 'pointer' and scope.pointers:
                name = self.pick(scope.pointers)[0]
                return self.pick(['*%s', '*%s', '%s[0]']) % name
            if way == 'member' and scope.structures:
                name, tag = self.pick(scope.structures)
                return self.member(name, tag, scope, depth)
            if way == 'port' and not self.in_handler:
                return self.pick(PORTS)
        return self.pick(PORTS)

    def member(self, name, tag, scope, depth):
        field, _, length = self.pick(dict(self.tags)[tag])
        return '%s.%s' % (name, field) + ('[%s]' % self.index(scope, length, depth) if length else '')

    def index(self, scope, length, depth):
        if length & (length - 1) == 0 and self.chance(60):
            return '%s&%d' % (self.factor(scope, depth - 1), length - 1)
        return str(self.random.randrange(length + (1 if self.chance(1) else 0)))

    def factor(self, scope, depth):
        e = self.expression(scope, depth)
        return e if e.isalnum() else '(%s)' % e

    def leaf(self, scope):
        way = self.random.randrange(12)
        if way < 3:
            return self.number()
        if way < 8 and scope.scalars:
            return self.pick(scope.scalars)[0]
        if way == 8 and scope.arrays:
            name, _, length = self.pick(scope.arrays)
            return '%s[%d]' % (name, self.random.randrange(length))
        if way == 9 and scope.pointers:
            return '*' + self.pick(scope.pointers)[0]
        if way == 10 and scope.structures:
            return self.member(*self.pick(scope.structures), scope, 0)
        if way == 11:
            return self.pick(PORTS + BITS)
        return self.number()

    def expression(self, scope, depth):
        if depth <= 0:
            return self.leaf(scope)
        way = self.random.randrange(26)
        a = lambda: self.factor(scope, depth - 1 - self.random.randrange(2))
        if way < 9:
            return '%s%s%s' % (a(), self.pick(BINARY), a())
        if way == 9:
            return '%s%s(%s|1)' % (a(), self.pick(['/', '%']), self.factor(scope, depth - 2))
        if way == 10:
            return '%s%s%s' % (a(), self.pick(['/', '%']), self.pick([a(), '3', '10u', '7l', '5ul']))
        if way == 11:
            return '%s%s(%s&%d)' % (a(), self.pick(['<<', '>>']), self.factor(scope, depth - 2), self.pick([7, 7, 15]))
        if way == 12:
            return '%s%s%d' % (a(), self.pick(['<<', '>>']), self.random.randrange(17 if self.chance(10) else 9))
        if way < 15:
            return '%s%s' % (self.pick(['-', '~', '!', '+']), a())
        if way < 18:
            return '(%s)%s' % (self.pick(TYPES), a())
        if way == 18:
            return '%s?%s:%s' % (a(), a(), a())
        if way == 19:
            return '(%s,%s)' % (a(), a())
        if way == 20:
            return '(%s=%s)' % (self.place(scope, depth - 1), self.expression(scope, depth - 1))
        if way == 21:
            free = [s for s in scope.scalars if s[0] not in scope.fixed]
            if free:
                name = self.pick(free)[0]
                return self.pick(['%s++', '++%s', '%s--', '--%s']) % name
        if way == 22 and self.functions and not self.in_handler and self.budget > 0:
            return self.call(scope, depth)
        if way == 23 and scope.arrays:
            name, _, length = self.pick(scope.arrays)
            if name not in scope.fixed:
                return '%s[%s]' % (name, self.index(scope, length, depth))
        if way == 24 and scope.pointers:
            return self.pointers(scope)
        if way == 24 and any(a[0] not in scope.fixed for a in scope.arrays):
            return self.inside(scope)
        if way == 25 and scope.arrays:
            return 'sizeof %s' % self.pick(scope.arrays)[0]
        return self.leaf(scope)

    def pointers(self, scope):
        """Two pointers to one type are compared, or one is subtracted from the other."""
        p = self.pick(scope.pointers)
        q = self.pick([x for x in scope.pointers if x[1] == p[1]])
        return self.pick(['%s==%s', '%s!=%s', '!%.0s%s', '%s&&%s', '%s==0||%s', '%s-%s', '%s<=%s']) % ((p[0], q[0]) if self.chance(20) else (p[0], p[0]))

    def inside(self, scope):
        """The difference of two places of one array, or which stands first."""
        name, _, length = self.pick([a for a in scope.arrays if a[0] not in scope.fixed])
        i, j = self.random.randrange(length + 1), self.random.randrange(length)
        return self.pick(['(%s+%d)-(%s+%d)', '(%s+%d)<(%s+%d)', '(%s+%d)>=(%s+%d)', '&%s[%d]-&%s[%d]']) % (name, min(i, length - 1), name, j)

    def call(self, scope, depth):
        self.budget -= 1
        name, result, params = self.pick(self.functions)
        arguments = []
        for kind, ty in params:
            if kind == 'value':
                arguments.append(self.expression(scope, depth - 1))
            else:
                arguments.append(self.address(scope, ty))
        if any(a is None for a in arguments):
            return self.leaf(scope)
        return '%s(%s)' % (name, ','.join(arguments)) if result != 'void' else '(%s(%s),%s)' % (name, ','.join(arguments), self.leaf(scope))

    def address(self, scope, ty):
        """A pointer to an object of the type."""
        ways = ['&' + s[0] for s in scope.scalars if s[1] == ty and s[0] not in scope.fixed]
        ways += ['%s+%d' % (a[0], self.random.randrange(a[2])) for a in scope.arrays if a[1] == ty and a[0] not in scope.fixed]
        ways += [p[0] for p in scope.pointers if p[1] == ty]
        for name, tag in scope.structures:
            ways += ['&%s.%s' % (name, field) if not length else '%s.%s' % (name, field) for field, kind, length in dict(self.tags)[tag] if kind == ty]
        return self.pick(ways + ['0'] * self.chance(2)) if ways else None

    # ---- statements
    def block(self, scope, depth, indent, count):
        lines = []
        for _ in range(count):
            lines += self.statement(scope, depth, indent)
        return lines

    def statement(self, scope, depth, indent):
        pad = '    ' * indent
        way = self.random.randrange(30 if depth > 0 else 14)
        if way < 5:
            return ['%s%s = %s;' % (pad, self.place(scope, 2), self.expression(scope, self.pick([1, 2, 2, 3])))]
        if way < 7:
            return ['%s%s %s %s;' % (pad, self.place(scope, 1), self.pick(UPDATES), self.expression(scope, 2))]
        if way == 7:
            op = self.pick(['<<=', '>>=', '/=', '%='])
            right = '(%s&7)' % self.leaf(scope) if op in ('<<=', '>>=') else '(%s|1)' % self.leaf(scope)
            return ['%s%s %s %s;' % (pad, self.place(scope, 1), op, right)]
        if way < 10:
            return ['%s%s = %s;' % (pad, self.pick(PORTS), self.expression(scope, 2))]
        if way == 10:
            return ['%s%s = %s;' % (pad, self.pick(BITS), self.expression(scope, 1))]
        if way == 11:
            return [pad + self.pick(['%s++;', '%s--;', '++%s;']) % self.place(scope, 1)]
        if way == 12:
            return self.structures(scope, pad)
        if way == 13:
            return self.moved(scope, pad)
        if way < 18:
            return self.branch(scope, depth, indent)
        if way < 22:
            return self.loop(scope, depth, indent)
        if way < 25:
            return self.switch(scope, depth, indent)
        if way < 26 and self.functions and not self.in_handler and self.budget > 0:
            return ['%s%s;' % (pad, self.call(scope, 2))]
        if way == 26 and self.in_function and self.chance(60):
            result = '' if self.in_function == 'void' else ' ' + self.expression(scope, 1)
            return ['%sif (%s) return%s;' % (pad, self.expression(scope, 1), result)]
        if way == 27 and self.in_loop:
            return ['%sif (%s) %s;' % (pad, self.expression(scope, 1), self.pick(['break', 'continue']))]
        if way == 28:
            return self.inner(scope, depth, indent)
        return [pad + '%s;' % self.expression(scope, 2)]

    def structures(self, scope, pad):
        pairs = [(a, b) for a in scope.structures for b in scope.structures if a[1] == b[1]]
        if not pairs:
            return [pad + ';']
        a, b = self.pick(pairs)
        return ['%s%s = %s;' % (pad, a[0], b[0])]

    def moved(self, scope, pad):
        """A pointer gets another place."""
        if not scope.pointers:
            return [pad + ';']
        p = self.pick(scope.pointers)
        to = self.address(scope, p[1])
        if self.chance(25):
            return [pad + self.pick(['%s++; %s--;', '%s += 1; --%s;', '++%s; %s -= 1;', '%s--; %s++;' if self.chance(20) else '%s = %s + 0;']) % (p[0], p[0])]
        return [pad + ('%s = %s;' % (p[0], to) if to else ';')]

    def branch(self, scope, depth, indent):
        pad = '    ' * indent
        lines = ['%sif (%s) {' % (pad, self.expression(scope, 2))] + self.block(scope, depth - 1, indent + 1, 1)
        while self.chance(25):
            lines += ['%s} else if (%s) {' % (pad, self.expression(scope, 1))] + self.block(scope, depth - 1, indent + 1, 1)
        if self.chance(50):
            lines += [pad + '} else {'] + self.block(scope, depth - 1, indent + 1, 1)
        return lines + [pad + '}']

    def loop(self, scope, depth, indent):
        pad, i = '    ' * indent, self.fresh('i')
        count = 1 + self.random.randrange(4)
        inner = Scope(scope)
        inner.scalars.append((i, 'unsigned char'))
        inner.fixed.add(i)
        self.in_loop += 1
        body = self.block(inner, depth - 1, indent + 2, 1 + self.random.randrange(2))
        self.in_loop -= 1
        form = self.random.randrange(3)
        if form == 0:
            made = ['%s    for (%s = 0; %s < %d; %s++) {' % (pad, i, i, count, i)] + body + [pad + '    }']
        elif form == 1:
            made = ['%s    %s = %d;' % (pad, i, count), '%s    while (%s--) {' % (pad, i)] + body + [pad + '    }']
        else:
            made = ['%s    %s = %d;' % (pad, i, count), '%s    do {' % pad] + body + ['%s    } while (--%s);' % (pad, i)]
        return ['%s{' % pad, '%s    unsigned char %s;' % (pad, i)] + made + [pad + '}']

    def switch(self, scope, depth, indent):
        pad = '    ' * indent
        labels = self.random.sample(range(6), 1 + self.random.randrange(4))
        lines = ['%sswitch (%s) {' % (pad, self.pick(['%s&3', '%s', '%s&7']) % self.factor(scope, 1))]
        kept = self.in_loop
        self.in_loop = 0
        default = self.random.randrange(len(labels) + 2)
        for at, label in enumerate(labels):
            if at == default:
                lines.append(pad + 'default:')
            lines.append('%scase %d:' % (pad, label))
            lines += self.block(scope, depth - 1, indent + 1, self.random.randrange(2))
            if self.chance(60):
                lines.append(pad + '    break;')
        if default == len(labels):
            lines += [pad + 'default:'] + self.block(scope, depth - 1, indent + 1, 1)
        self.in_loop = kept
        return lines + [pad + '    ;', pad + '}']

    def inner(self, scope, depth, indent):
        pad = '    ' * indent
        inner = Scope(scope)
        lines = self.locals(inner, indent + 1, 1)
        return [pad + '{'] + lines + self.block(inner, depth - 1, indent + 1, 1) + [pad + '}']

    # ---- declarations
    def locals(self, scope, indent, count):
        pad, lines = '    ' * indent, []
        for _ in range(count):
            way = self.random.randrange(10)
            ty, name = self.pick(TYPES), self.fresh('v')
            if way < 5:
                lines.append('%s%s %s = %s;' % (pad, ty, name, self.expression(scope, 2)))
                scope.scalars.append((name, ty))
            elif way == 5:
                lines.append('%s%s %s;' % (pad, ty, name))
                if self.chance(15):
                    scope.scalars.append((name, ty))
            elif way == 6:
                length = self.pick([2, 3, 4])
                lines.append('%s%s %s[%d] = {%s};' % (pad, ty, name, length, ','.join(self.expression(scope, self.random.randrange(2)) for _ in range(1 + self.random.randrange(length)))))
                scope.arrays.append((name, ty, length))
            elif way == 7:
                lines.append('%schar %s[4] = "%s";' % (pad, name, self.pick(['', 'a', 'xyz', 'abcd'])))
                scope.arrays.append((name, 'char', 4))
            elif way == 8 and scope.structures and self.chance(30):
                other, tag = self.pick(scope.structures)
                lines.append('%sstruct %s *%s = &%s;' % (pad, tag, name, other))
                scope.structures.append(('(*%s)' % name, tag))
            elif way == 8 and self.tags:
                tag = self.pick(self.tags)[0]
                others = [s for s in scope.structures if s[1] == tag]
                first = dict(self.tags)[tag][0]
                value = self.pick(others)[0] if others and self.chance(50) else ('{{%s}}' if first[2] else '{%s}') % self.expression(scope, 1)
                if others and self.chance(30):
                    lines.append('%sstruct %s %s[2] = {%s,%s};' % (pad, tag, name, self.pick(others)[0], self.pick(others)[0]))
                    scope.structures.append((name + '[%d]' % self.random.randrange(2), tag))
                else:
                    lines.append('%sstruct %s %s = %s;' % (pad, tag, name, value))
                    scope.structures.append((name, tag))
            else:
                to = self.address(scope, ty)
                if to:
                    lines.append('%s%s *%s = %s;' % (pad, ty, name, to))
                    scope.pointers.append((name, ty))
        return lines

    def tag(self):
        name, members = self.fresh('s'), []
        for _ in range(1 + self.random.randrange(3)):
            members.append((self.fresh('m'), self.pick(TYPES), self.pick([0, 0, 0, 2, 4])))
        body = ' '.join('%s %s%s;' % (ty, field, '[%d]' % length if length else '') for field, ty, length in members)
        self.tags.append((name, members))
        self.text.append('struct %s { %s };' % (name, body))

    def statics(self):
        scope = self.globals
        for _ in range(2 + self.random.randrange(4)):
            ty, name = self.pick(TYPES), self.fresh('g')
            word = self.pick(['', 'static ', 'volatile ', 'static volatile '])
            way = self.random.randrange(10)
            kept = 'volatile ' + ty if 'volatile' in word else ty
            if way < 5:
                self.text.append('%s%s %s%s;' % (word, ty, name, self.pick(['', ' = %d' % self.random.randrange(300)])))
                scope.scalars.append((name, kept))
            elif way < 7:
                length = self.pick([2, 4])
                self.text.append('%s%s %s[%d]%s;' % (word, ty, name, length, self.pick(['', ' = {1,2}'])))
                scope.arrays.append((name, kept, length))
            elif way == 7:
                self.text.append('const %s %s[4] = {%d,2,300,4};' % (ty, name, self.random.randrange(256)))
                scope.arrays.append((name, ty, 4))
                scope.fixed.add(name)
            elif way == 8 and self.tags:
                tag = self.pick(self.tags)[0]
                self.text.append('struct %s %s;' % (tag, name))
                scope.structures.append((name, tag))
            else:
                targets = [t for t in scope.scalars if t[1] == ty]
                if targets:
                    self.text.append('%s *%s = &%s;' % (ty, name, self.pick(targets)[0]))
                    scope.pointers.append((name, ty))

    def function(self):
        name, result = self.fresh('f'), self.pick(TYPES + ['void'])
        scope, params = Scope(self.globals), []
        shown = []
        for _ in range(self.random.randrange(4)):
            ty, p = self.pick(TYPES), self.fresh('p')
            if self.chance(75):
                params.append(('value', ty))
                scope.scalars.append((p, ty))
                shown.append('%s %s' % (ty, p))
            else:
                params.append(('pointer', ty))
                scope.pointers.append((p, ty))
                shown.append('%s *%s' % (ty, p))
        self.budget, self.in_function = 2, result
        lines = self.locals(scope, 1, self.random.randrange(3)) + self.block(scope, 1, 1, 1 + self.random.randrange(2))
        if result != 'void' and self.chance(95):
            lines.append('    return %s;' % self.expression(scope, 2))
        self.text += ['%s %s(%s)' % (result, name, ','.join(shown) or 'void'), '{'] + lines + ['}']
        self.in_function = None
        self.functions.append((name, result, params))

    def handler(self):
        scope = Scope(self.globals)
        self.in_handler, kept = True, self.functions
        lines = self.locals(scope, 1, self.random.randrange(2))
        lines += self.block(scope, 1, 1, 1 + self.random.randrange(2))
        clear = self.pick(['INTCON = INTCON & 0x78;', 'INTCON = 0x78;', 'INTF = 0; TMR0IF = 0; RBIF = 0;']) + self.pick([' PIR1 = 0;', ' PIR1 = PIR1 & 0xF0;', ' TMR1IF = 0; RCIF = 0;', ' PIE1 = 0;'])
        self.in_handler = False
        if kept and self.chance(40):
            self.budget = 1
            lines.append('    %s;' % self.call(scope, 1))
        self.text += ['void interrupt isr(void)', '{'] + lines + ['    ' + clear, '}']

    def main(self, has_handler):
        scope = Scope(self.globals)
        self.budget = 5
        lines = self.locals(scope, 1, 1 + self.random.randrange(3))
        body = self.block(scope, 2, 1, 2 + self.random.randrange(4))
        if has_handler:
            enable = self.pick(['0xB8', '0xF8', '0xF8', '0xA8', '184'])
            lines.append('    INTCON = %s;' % enable)
            if self.chance(40):
                lines.append('    PIE1 = %d;' % self.pick([255, 1, 0x60]))
            if self.chance(40):
                body.insert(self.random.randrange(len(body) + 1), '    INTCON = 0x%X;' % self.random.randrange(256)) if self.chance(30) else None
        self.text += ['void main(void)', '{'] + lines + body + ['}']


def program(random):
    """The text of a program."""
    made = Program(random)
    for _ in range(random.randrange(3)):
        made.tag()
    made.statics()
    for _ in range(random.randrange(4)):
        made.function()
    has_handler = made.chance(60)
    if has_handler:
        made.handler()
    made.main(has_handler)
    return '\n'.join(made.text) + '\n'
