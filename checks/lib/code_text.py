"""Reads the text that picc_show prints, and makes of it the values that the interpreter of definitions takes: a constructor is a
tuple with its name first, a list a tuple, a record a Record. The notation's grammar stands at the head of crates/listings."""
from library import NONE, Record, some


class Line:
    """A line with its head, its parts, and the lines that stand below it."""
    __slots__ = ('head', 'parts', 'below')

    def __init__(self, head, parts):
        self.head, self.parts, self.below = head, parts, []


def parts_in(text):
    """The parts of a line: each a number, a name, or a tuple of a head and its parts."""
    parts, depth, begin = [], 0, 0
    for at, c in enumerate(text + ', '):
        if c == '(':
            depth += 1
        elif c == ')':
            depth -= 1
        elif c == ',' and depth == 0:
            parts.append(part_in(text[begin:at]))
            begin = at + 2
    return parts


def part_in(text):
    if text.endswith(')'):
        head, _, rest = text[:-1].partition('(')
        return (head,) + tuple(parts_in(rest))
    try:
        return int(text)
    except ValueError:
        return text


def lines_in(text):
    """The lines without indentation, with all others below them."""
    top = Line('', [])
    open_lines = [top]
    for line in text.split('\n'):
        if not line:
            continue
        words = line.lstrip(' ')
        depth = (len(line) - len(words)) // 2
        head, _, rest = words.partition(' ')
        made = Line(head, parts_in(rest) if rest else [])
        del open_lines[depth + 1:]
        open_lines[depth].below.append(made)
        open_lines.append(made)
    return top.below


# ---- types
def type_of(part):
    if part == 'Void':
        return ('Void',)
    if isinstance(part, str):
        return ('Int', (part,))
    return part


def qualified(parts):
    return Record(ty=type_of(parts[-1]), constant='const' in parts[:-1], volatile='volatile' in parts[:-1])


def codes(name):
    return tuple(str(name).encode('latin-1'))


# ---- expressions
def expression(x):
    """An expression; its last part is its line, and the one before it its type."""
    h, p, b = x.head, x.parts, x.below
    ty, line = (type_of(p[-2]) if len(p) > 1 else None), p[-1]
    if h == 'Constant':
        return (h, Record(ty=ty[1], number=p[0]), line)
    if h in ('Read', 'Address'):
        return (h, place(b[0]), ty, line)
    if h in ('Convert', 'Cast'):
        return (h, expression(b[0]), ty, line)
    if h == 'Unary':
        return (h, (p[0],), expression(b[0]), ty, line)
    if h == 'Binary':
        return (h, (p[0],), expression(b[0]), expression(b[1]), ty, line)
    if h == 'Offset':
        return (h, (p[0],), expression(b[0]), expression(b[1]), p[1], ty, line)
    if h == 'Difference':
        return (h, expression(b[0]), expression(b[1]), p[0], line)
    if h == 'Logical':
        return (h, (p[0],), expression(b[0]), expression(b[1]), line)
    if h == 'Conditional':
        return (h, expression(b[0]), expression(b[1]), expression(b[2]), ty, line)
    if h == 'Comma':
        return (h, expression(b[0]), expression(b[1]), ty, line)
    if h == 'Assign':
        return (h, place(b[0]), expression(b[1]), ty, line)
    if h == 'StructAssign':
        return (h, place(b[0]), place(b[1]), p[0], line)
    if h == 'Update':
        return (h, (p[0],), place(b[0]), expression(b[1]), type_of(p[1]), p[2], ty, line)
    if h == 'Step':
        return (h, (p[0],), place(b[0]), type_of(p[1]), p[2], ty, line)
    if h == 'Call':
        return (h, p[0], linked('NoExpression', 'AndExpression', map(expression, b)), ty, line)
    raise ValueError(h)


def place(x):
    h, p = x.head, x.parts
    if h == 'Name':
        return (h, p[0], qualified(p[1:-1]), p[-1])
    if h == 'Bit':
        return (h, p[0], p[1], p[2])
    if h == 'Member':
        return (h, place(x.below[0]), p[0], p[1], qualified(p[2:-1]), p[-1])
    if h == 'Deref':
        return (h, expression(x.below[0]), qualified(p[:-1]), p[-1])
    raise ValueError(h)


def linked(empty, more, values):
    """A list as the trees have it, made of two constructors."""
    made = (empty,)
    for value in reversed(list(values)):
        made = (more, value, made)
    return made


def perhaps(x):
    return NONE if x.head == 'None' else some(expression(x))


# ---- statements
def item(x):
    if x.head == 'Scalar':
        return ('Scalar', x.parts[0], expression(x.below[0]))
    if x.head == 'Struct':
        return ('Struct', x.parts[0], place(x.below[0]), x.parts[1])
    return ('Text', x.parts[0], tuple(x.below[0].parts), x.parts[1])


def statements(xs):
    return linked('NoStatement', 'AndStatement', map(statement, xs))


def arm(x):
    return ('OneArm', expression(x.below[0]), statement(x.below[1]), x.parts[0])


def switch(x):
    cases, default, body = [], NONE, []
    for y in x.below[1:]:
        if y.head == 'Case':
            cases.append(Record(value=Record(ty=(y.parts[1],), number=y.parts[0]), target=y.parts[2], line=y.parts[3]))
        elif y.head == 'Default':
            default = some(y.parts[0])
        else:
            body.append(y)
    return ('Switch', expression(x.below[0]), tuple(cases), default, statements(body), x.parts[0])


def statement(x):
    h, p, b = x.head, x.parts, x.below
    if h == 'Block':
        return (h, statements(b), p[0])
    if h in ('Empty', 'Break', 'Continue'):
        return (h, p[0])
    if h == 'Expr':
        return (h, expression(b[0]), p[0])
    if h == 'Declare':
        return (h, p[0], p[1])
    if h == 'InitScalar':
        return (h, p[0], expression(b[0]), p[1])
    if h == 'InitList':
        return (h, p[0], tuple(map(item, b)), p[1])
    if h == 'If':
        arms = [y for y in b if y.head == 'Arm']
        last = [y for y in b if y.head != 'Arm']
        return (h, linked('NoArm', 'AndArm', map(arm, arms)), ('Last', statement(last[0])) if last else ('NoLast',), p[0])
    if h == 'Loop':
        return (h, (p[0],), perhaps(b[0]), perhaps(b[1]), perhaps(b[2]), statement(b[3]), p[1])
    if h == 'Switch':
        return switch(x)
    if h == 'Return':
        return (h, perhaps(b[0]), p[0])
    raise ValueError(h)


def nodes(x):
    """How many nodes a tree has: each expression, place and statement, each arm, each case label, and each function."""
    here = 0 if x.head in ('Declare', 'If', 'None', 'Default', 'Scalar', 'Struct', 'Text', 'Bytes') else 1
    return here + sum(map(nodes, x.below))


# ---- programs
def initial(x):
    offset, byte = x.parts
    return Record(offset=offset, byte=byte if byte[0] == 'Number' else ('Address', byte[1], byte[2]))


def variable(x):
    return Record(name=codes(x.parts[0]), ty=qualified(x.parts[1:-1]), line=x.parts[-1])


def function(x):
    p = x.parts
    below = {head: [y for y in x.below if y.head == head] for head in ('Param', 'Local', 'Body')}
    return Record(name=codes(p[0]), result=type_of(p[-2]), params=tuple(map(variable, below['Param'])),
               locals=tuple(map(variable, below['Local'])), body=statements(below['Body'][0].below),
               interrupt='interrupt' in p[1:-2], line=p[-1])


def static(x):
    return Record(name=codes(x.parts[0]), ty=qualified(x.parts[1:-1]), line=x.parts[-1], initial=tuple(map(initial, x.below)))


def structure(x):
    return Record(members=tuple(Record(ty=qualified(y.parts[2:]), offset=y.parts[1]) for y in x.below), size=x.parts[0])


def program(x):
    of = lambda head: [y for y in x.below if y.head == head]
    structures = tuple(map(structure, of('Structure')))
    return Record(targets=tuple(qualified(y.parts) for y in of('Target')), structures=structures,
               sizes=tuple(s.size for s in structures), statics=tuple(map(static, of('Static'))),
               functions=tuple(map(function, of('Function'))))


def program_nodes(x):
    return sum(1 + sum(map(nodes, z.below)) for y in x.below if y.head == 'Function' for z in y.below if z.head == 'Body')


# ---- byte code
def byte(part, own):
    if part[0] == 'F':
        return ('Frame', own, part[1])
    if part[0] == 'Result':
        return ('Result', (part[1],), part[2])
    return part


def operation(x, own):
    h, p = x.head, x.parts
    at = lambda part: byte(part, own)
    if h == 'Set':
        return (h, at(p[0]), p[1])
    if h in ('Address', 'Copy'):
        return (h, at(p[0]), at(p[1]))
    if h in ('Load', 'Store'):
        return (h, at(p[0]), at(p[1]), p[2])
    if h == 'Unary':
        return (h, (p[0],), (p[1],), at(p[2]))
    if h == 'Binary':
        return (h, (p[0],), (p[1],), at(p[2]), at(p[3]), at(p[4]))
    if h == 'Convert':
        return (h, (p[0],), (p[1],), at(p[2]))
    if h == 'BitRead':
        return (h, at(p[0]), p[1], p[2])
    if h == 'BitWrite':
        return (h, p[0], p[1], at(p[2]))
    if h in ('Call', 'Exit', 'Again'):
        return (h, p[0])
    if h == 'Leave':
        return (h,)
    if h == 'Many':
        return (h, linked('NoTree', 'AndTree', (operation(y, own) for y in x.below)))
    if h == 'If':
        return (h, at(p[0]), p[1], operation(x.below[0], own), operation(x.below[1], own))
    if h == 'Loop':
        return (h, operation(x.below[0], own))
    raise ValueError(h)


def first_byte(part):
    """A byte of a static object at the start: a number, or a byte of a pointer."""
    if isinstance(part, int):
        return ('Number', part)
    return ('Part', ('Fixed', part[1]), 0, part[0] == 'High')


# ---- symbolic code
def operand(part, own):
    if isinstance(part, str):
        return ('Saved', (part[5:],)) if part.startswith('Saved') else ('Register', (part,))
    return ('Byte', byte(part, own))


def name(part):
    return (part,) if isinstance(part, str) else part


def label(part):
    return (part,) if isinstance(part, str) else part


def target(part):
    if part == 'Start' or part[0] == 'Copy':
        return ('Block', name(part))
    return ('Label', label(part))


def literal(part, own):
    return ('Number', part) if isinstance(part, int) else (part[0], byte(part[1], own))


def instruction(x, own):
    h, p = x.head, x.parts
    if h == 'File':
        return (h, (p[0],), operand(p[1], own), (p[2],))
    if h in ('Movwf', 'Clrf'):
        return (h, operand(p[0], own))
    if h == 'Bit':
        return (h, (p[0],), operand(p[1], own), p[2])
    if h == 'Literal':
        return (h, (p[0],), literal(p[1], own))
    if h == 'Plain':
        return (h, (p[0],))
    if h in ('Call', 'Goto'):
        return (h, target(p[0]))
    if h == 'Label':
        return (h, label(p[0]))
    if h == 'SelectBank':
        return (h, (p[0],), p[1] == 1)
    if h == 'SelectPage':
        return (h, (p[0],), target(p[1]))
    if h == 'Table':
        return (h, p[0], (p[1],))
    raise ValueError(h)


def blocks(x):
    """Each block's instructions by its name, in the order of code."""
    made = {}
    for y in x.below:
        block = name(y.parts[0])
        own = block[1] if block[0] == 'Copy' else None
        made[block] = tuple(instruction(z, own) for z in y.below)
    return made


def is_select(x):
    return x[0] in ('SelectBank', 'SelectPage')


def prices_in(block):
    """For each instruction that is no select: one, and one for each select before it."""
    prices, selects = [], 0
    for x in block:
        if is_select(x):
            selects += 1
        else:
            prices.append(1 + selects)
            selects = 0
    return prices


class Shown:
    """All that picc_show tells of a text."""

    def __init__(self, text):
        tops = {x.head: x for x in lines_in(text)}
        self.program = program(tops['Program'])
        self.nodes = program_nodes(tops['Program'])
        self.objects = [self.standing(x) for x in tops['Objects'].below]
        self.copies = [self.copy(x) for x in tops['Copies'].below]
        core = tops['Core'].below
        self.first = tuple(tuple(map(first_byte, x.parts)) for x in core if x.head == 'First')
        self.bodies = {x.parts[0]: tuple(operation(y, x.parts[0]) for y in x.below) for x in core if x.head == 'Body'}
        self.plain = blocks(tops['Plain'])
        self.selected = blocks(tops['Selected'])
        # the code before selects were put into it, which is the first one where nothing was left out
        lean = {name: tuple(x for x in block if not is_select(x)) for name, block in self.selected.items()}
        self.lean = self.plain if lean == self.plain else lean
        self.addresses = {name(x.parts[0]): x.parts[1][1] for x in tops['Selected'].below}
        self.prices = {block: prices_in(self.selected[block]) for block in self.selected}
        image = tops['Image']
        self.main, self.halt = image.parts[0][1], image.parts[1][1]
        words = [0x3fff] * 8192
        for x in image.below:
            words[x.parts[0]] = x.parts[1]
        self.image = tuple(words)
        self.handler = next((n for n, c in enumerate(self.copies) if c.root == ('Isr',)), None)

    def page_of(self, block):
        return self.addresses[block] // 2048

    def price(self, block, index):
        """What an instruction of the leaner code costs, with the selects that stand before it in the code with selects."""
        return self.prices[block][index]

    @staticmethod
    def standing(x):
        p = x.parts
        return Record(constant='const' in p[3:], name=codes(p[0]), address=p[1][1], size=p[2][1])

    @staticmethod
    def copy(x):
        root, function_, called, at, size, parameters, variables = x.parts
        if function_[0] == 'Helper':
            function_ = ('Helper', (function_[1],))
        return Record(root=(root,), function=function_, name=codes(called), address=at[1], size=size[1], parameters=parameters[1], variables=variables[1])
