"""Reads C texts of the subset by themselves, and makes of each the tree that c_nodes's definitions have (specs/Trees.antt and
Programs.antt), as values that the interpreter of definitions takes. It knows the grammar, directives and the replacement of names, and
no limits. It is written apart from the compiler's own parser."""
import re

from library import NONE, Record, some

KEYWORDS = ('auto break case char const continue default do else enum for if int interrupt long register return short signed sizeof static struct '
            'switch typedef unsigned void volatile while').split()
EXCLUDED = 'float double union goto extern bit bank1 bank2 bank3 persistent asm __asm __CONFIG __interrupt'.split()
PUNCTUATORS = {
    '[': 'LeftBracket', ']': 'RightBracket', '(': 'LeftParenthesis', ')': 'RightParenthesis', '{': 'LeftBrace', '}': 'RightBrace', '.': 'Dot',
    '->': 'Arrow', '++': 'Increment', '--': 'Decrement', '&': 'Ampersand', '*': 'Star', '+': 'Plus', '-': 'Minus', '~': 'Tilde', '!': 'Not',
    '/': 'Slash', '%': 'Percent', '<<': 'ShiftLeft', '>>': 'ShiftRight', '<': 'Less', '>': 'Greater', '<=': 'LessEqual', '>=': 'GreaterEqual',
    '==': 'Equal', '!=': 'NotEqual', '^': 'Caret', '|': 'Bar', '&&': 'And', '||': 'Or', '?': 'Question', ':': 'Colon', ';': 'Semicolon',
    '=': 'Assign', '*=': 'StarAssign', '/=': 'SlashAssign', '%=': 'PercentAssign', '+=': 'PlusAssign', '-=': 'MinusAssign',
    '<<=': 'ShiftLeftAssign', '>>=': 'ShiftRightAssign', '&=': 'AmpersandAssign', '^=': 'CaretAssign', '|=': 'BarAssign', ',': 'Comma',
    '#': 'Hash'}
LETTERS = {'n': 10, 't': 9, 'v': 11, 'b': 8, 'r': 13, 'f': 12, 'a': 7}
ELEMENT = r'(?:[^\x00-\x1f\x7f-\xff\\%s]|\\(?:[ntvbrfa\\?\x27"]|[0-7]{1,3}|x[0-9a-fA-F]+))'
TOKEN = re.compile(r'(?P<blank>[ \t\v\f\r\n]+|//[^\n]*|/\*.*?\*/)|(?P<name>[A-Za-z_]\w*)|(?P<number>\d[\w.]*)'
                   r"|(?P<char>'%s')|(?P<text>\"%s*\")|(?P<punct>%s)"
                   % (ELEMENT % "'", ELEMENT % '"', '|'.join(map(re.escape, sorted(PUNCTUATORS, key=len, reverse=True)))), re.S | re.A)
NUMBER = re.compile(r'(?:0[xX](?P<x>[0-9a-fA-F]+)|0[bB](?P<b>[01]+)|(?P<o>0[0-7]*)|(?P<d>[1-9]\d*))(?P<suffix>[uU]?[lL]?|[lL][uU])$', re.A)


class NoTree(Exception):
    """The text has no tree."""


class Token:
    """A token: its form, its spelling, and its line."""
    __slots__ = ('form', 'spelling', 'line', 'first')

    def __init__(self, form, spelling, line, first=False):
        self.form, self.spelling, self.line, self.first = form, spelling, line, first


def character(element):
    """The code of an element of a constant or of a string."""
    if element[0] != '\\':
        return ord(element)
    rest = element[1:]
    if rest[0] == 'x':
        return int(rest[1:], 16)
    if rest[0] in '01234567':
        return int(rest, 8)
    return LETTERS.get(rest, ord(rest))


def tokens_of(text):
    made, at, line, begins = [], 0, 1, True
    while at < len(text):
        found = TOKEN.match(text, at)
        if found is None or (found.lastgroup == 'punct' and found.group() == '#' and not begins):
            raise NoTree('token on line %d' % line)
        spelling = found.group()
        if found.lastgroup != 'blank':
            if found.lastgroup == 'number' and number(spelling) is None:
                raise NoTree('number on line %d' % line)
            if found.lastgroup in ('char', 'text') and any(character(e) > 255 for e in re.findall(r'\\x[0-9a-fA-F]+|\\[0-7]{1,3}', spelling)):
                raise NoTree('character on line %d' % line)
            made.append(Token(found.lastgroup, spelling, line, begins))
            begins = False
        line += spelling.count('\n')
        begins = begins or '\n' in spelling
        at = found.end()
    return made


def number(spelling):
    """The value, the base and the suffixes of an integer constant."""
    found = NUMBER.match(spelling)
    if found is None:
        return None
    base, digits = next((b, found.group(g)) for b, g in ((16, 'x'), (2, 'b'), (8, 'o'), (10, 'd')) if found.group(g) is not None)
    value, suffix = int(digits, base), found.group('suffix').lower()
    return (value, base, 'u' in suffix, 'l' in suffix) if value < 1 << 32 else None


def program_tokens(text):
    """The tokens that directives and the replacement of names leave."""
    left, macros, tokens = [], {}, tokens_of(text)
    while tokens:
        if not tokens[0].first or tokens[0].spelling != '#':
            count = next((i for i, t in enumerate(tokens) if i and t.first), len(tokens))
            if any(t.spelling in EXCLUDED for t in tokens[:count] if t.form == 'name'):
                raise NoTree('excluded word')
            for t in tokens[:count]:
                left += replaced(t, macros, ())
        else:
            count = next((i for i, t in enumerate(tokens) if i and t.line > tokens[0].line), len(tokens))
            directive([t for t in tokens[:count]], text, macros)
        tokens = tokens[count:]
    return left


def directive(line, text, macros):
    words = [t.spelling for t in line]
    if len(line) == 1:
        return
    if words[1] == 'include':
        if ''.join(words[2:]) not in ('<htc.h>', '<pic.h>', '<xc.h>') or ''.join(words[2:]) not in text.split('\n')[line[0].line - 1]:
            raise NoTree('include')
    elif words[1] == 'define' and len(line) > 2 and line[2].form == 'name' and words[2] not in KEYWORDS + EXCLUDED:
        source = text.split('\n')[line[0].line - 1]
        if re.search(r'define\s+%s\(' % re.escape(words[2]), source) or any(w in EXCLUDED for w in words[3:]):
            raise NoTree('define')
        listed = [(t.form, t.spelling) for t in line[3:]]
        if macros.setdefault(words[2], listed) != listed:
            raise NoTree('define again')
    else:
        raise NoTree('directive')


def replaced(token, macros, under_way):
    if token.form != 'name' or token.spelling not in macros or token.spelling in under_way:
        return [token]
    made = []
    for form, spelling in macros[token.spelling]:
        made += replaced(Token(form, spelling, token.line), macros, under_way + (token.spelling,))
    return made


def marked(tokens):
    """The tokens with the names of types marked: of each `typedef` outside brackets those that stand outside brackets up to its `;`."""
    depths, depth = [], 0
    for t in tokens:
        depths.append(depth)
        if t.form == 'punct':
            depth = max(0, depth + (t.spelling in '([{') - (t.spelling in ')]}'))
    kinds = {}      # a type name, and the place of the `;` that it stands from
    for at, t in enumerate(tokens):
        before = tokens[at - 1].spelling if at else ''
        if t.form == 'name' and t.spelling in kinds and kinds[t.spelling] < at and before not in ('.', '->', 'struct', 'enum'):
            t.form = 'type'
        if t.form == 'name' and t.spelling == 'typedef' and depths[at] == 0:
            end = next((k for k in range(at, len(tokens)) if depths[k] == 0 and tokens[k].form == 'punct' and tokens[k].spelling == ';'), None)
            for k in range(at, end or at):
                name = tokens[k]
                if name.form == 'name' and name.spelling not in KEYWORDS and depths[k] == 0 and tokens[k - 1].spelling not in ('struct', 'enum'):
                    kinds.setdefault(name.spelling, end)
    return tokens


# ---- symbols
def symbol(token, with_bytes=True):
    spelling, bytes_ = token.spelling, ()
    if token.form == 'punct':
        kind = ('Punct', (PUNCTUATORS[spelling],))
    elif token.form == 'name' and spelling in KEYWORDS:
        kind = ('Keyword', (spelling.capitalize(),))
    elif token.form == 'type':
        kind, bytes_ = ('TypeName',), tuple(spelling.encode('latin-1'))
    elif token.form == 'name':
        kind, bytes_ = ('Name',), tuple(spelling.encode('latin-1'))
    elif token.form == 'number':
        kind = ('Int',) + number(spelling)
    elif token.form == 'char':
        kind = ('Char', character(spelling[1:-1]))
    else:
        kind, bytes_ = ('Text',), tuple(spelling.encode('latin-1'))
    return Record(kind=kind, bytes=bytes_ if with_bytes else (), line=token.line)


def linked(empty, more, parts):
    """A list as the trees have it: each part is the fields before the rest."""
    made = (empty,)
    for part in reversed(parts):
        made = (more,) + part + (made,)
    return made


SPEC_WORDS = 'typedef static auto register const volatile interrupt void char short int long signed unsigned'.split()
LEVELS = (('||',), ('&&',), ('|',), ('^',), ('&',), ('==', '!='), ('<', '>', '<=', '>='), ('<<', '>>'), ('+', '-'), ('*', '/', '%'))
ASSIGNMENTS = '= *= /= %= += -= <<= >>= &= ^= |='.split()


def begins_spec(token):
    return token.form == 'type' or (token.form == 'name' and token.spelling in SPEC_WORDS + ['struct', 'enum'])


class Reader:
    """Reads tokens from the left to the right, by the grammar."""

    def __init__(self, tokens):
        self.tokens, self.at = tokens + [Token('end', '', 0)], 0

    def stands(self, *spellings):
        token = self.tokens[self.at]
        return token.spelling in spellings and token.form in ('punct', 'name')

    def next(self):
        self.at += 1
        return self.tokens[self.at - 1]

    def want(self, spelling):
        """The line of a token that has to come."""
        if not self.stands(spelling):
            raise NoTree('%r is missing at line %d' % (spelling, self.tokens[self.at].line))
        return self.next().line

    def name(self):
        token = self.next()
        if token.form != 'name' or token.spelling in KEYWORDS:
            raise NoTree('a name is missing at line %d' % token.line)
        return symbol(token)

    # ---- expressions
    def expression(self):
        made = self.assign()
        while self.stands(','):
            sign = symbol(self.next())
            made = ('Join', sign, made, self.assign())
        return made

    def assign(self):
        begin = self.at
        left = self.cond()
        if self.stands(*ASSIGNMENTS):
            if not self.is_unary(left):
                raise NoTree('no left side at line %d' % self.tokens[begin].line)
            sign = symbol(self.next())
            return 'Assign', left, sign, self.assign()
        return left

    @staticmethod
    def is_unary(tree):
        return tree[0] in ('Leaf', 'Group', 'Behind', 'Measure') or (tree[0] == 'Before' and tree[1][0] != 'Cast')

    def cond(self):
        made = self.binary(0)
        if not self.stands('?'):
            return made
        question = self.next().line
        then = self.expression()
        colon = self.want(':')
        return 'Choose', made, question, then, colon, self.cond()

    def binary(self, level):
        if level == len(LEVELS):
            return self.cast()
        made = self.binary(level + 1)
        while self.stands(*LEVELS[level]):
            sign = symbol(self.next())
            made = ('Join', sign, made, self.binary(level + 1))
        return made

    def opens_type(self):
        after = self.tokens[min(self.at + 1, len(self.tokens) - 1)]
        return self.stands('(') and begins_spec(after)

    def bracketed_type(self):
        opening = self.want('(')
        ty = ('TypeOf', self.specs(), self.pointers())
        return opening, ty, self.want(')')

    def cast(self):
        if self.opens_type():
            opening, ty, closing = self.bracketed_type()
            return 'Before', ('Cast', opening, ty, closing), self.cast()
        return self.unary()

    def unary(self):
        if self.stands('++', '--'):
            sign = symbol(self.next())
            return 'Before', ('Sign', sign), self.unary()
        if self.stands('&', '*', '+', '-', '~', '!'):
            sign = symbol(self.next())
            return 'Before', ('Sign', sign), self.cast()
        if self.stands('sizeof'):
            line = self.next().line
            if self.opens_type():
                return ('Measure', line) + self.bracketed_type()
            return 'Before', ('Sizeof', line), self.unary()
        return self.postfix()

    def postfix(self):
        made = self.primary()
        while self.stands('[', '(', '.', '->', '++', '--'):
            made = ('Behind', made, self.suffix_of_value())
        return made

    def suffix_of_value(self):
        token = self.next()
        if token.spelling == '[':
            index = self.expression()
            return 'Index', token.line, index, self.want(']')
        if token.spelling == '(':
            if self.stands(')'):
                return 'CallBare', token.line, self.next().line
            list_ = self.expression()
            return 'Call', token.line, list_, self.want(')')
        if token.spelling in ('.', '->'):
            return 'Field', symbol(token), self.name()
        return 'Step', symbol(token)

    def primary(self):
        token = self.tokens[self.at]
        if self.stands('('):
            opening = self.next().line
            made = self.expression()
            return 'Group', opening, made, self.want(')')
        if token.form in ('number', 'char') or (token.form == 'name' and token.spelling not in KEYWORDS):
            return 'Leaf', symbol(self.next())
        raise NoTree('no expression at line %d' % token.line)

    # ---- declarations
    def begins_specs(self):
        return begins_spec(self.tokens[self.at])

    def specs(self):
        if not self.begins_specs():
            raise NoTree('no specifiers at line %d' % self.tokens[self.at].line)
        first, others = self.spec(), []
        while self.begins_specs():
            others.append((self.spec(),))
        return 'Specified', first, linked('NoSpec', 'AndSpec', others)

    def spec(self):
        token = self.next()
        if token.form == 'type':
            return 'NamedType', symbol(token)
        if token.spelling == 'enum':
            return self.enumeration(token)
        if token.spelling != 'struct':
            return 'OneWord', symbol(token)
        tag = () if self.stands('{') else (self.name(),)
        if not self.stands('{'):
            return 'Tagged', token.line, tag[0]
        opening, members = self.next().line, []
        while not self.stands('}'):
            members.append((self.member(),))
        if not members:
            raise NoTree('no members at line %d' % opening)
        return 'Body', token.line, tag, opening, members[0][0], linked('NoMember', 'AndMember', members[1:]), self.next().line

    def enumeration(self, token):
        tag = () if self.stands('{') else (self.name(),)
        if not self.stands('{'):
            return 'EnumTagged', token.line, tag[0]
        opening, first, others, last = self.next().line, self.enumerator(), [], NONE
        while self.stands(','):
            comma = self.next().line
            if self.stands('}'):
                last = some(comma)
                break
            others.append((comma, self.enumerator()))
        return 'EnumBody', token.line, tag, opening, first, linked('NoEnumerator', 'AndEnumerator', others), last, self.want('}')

    def enumerator(self):
        name = self.name()
        if not self.stands('='):
            return 'Bare', name
        equals = self.next().line
        return 'Valued', name, equals, self.cond()

    def member(self):
        specs, first, others = self.specs(), self.declarator(), []
        while self.stands(','):
            comma = self.next().line
            others.append((comma, self.declarator()))
        return 'Members', specs, first, linked('NoDeclarator', 'AndDeclarator', others), self.want(';')

    def pointers(self):
        made = []
        while self.stands('*') or (made and self.stands('const', 'volatile')):
            made.append(symbol(self.next()))
        return tuple(made)

    def declarator(self):
        pointers = self.pointers()
        name = self.name()
        return 'Declares', pointers, name, self.suffixes()

    def suffixes(self):
        made = []
        while self.stands('[', '('):
            made.append((self.suffix(),))
        return linked('NoSuffix', 'AndSuffix', made)

    def suffix(self):
        token = self.next()
        if token.spelling == '[':
            if self.stands(']'):
                return 'Unsized', token.line, self.next().line
            length = self.cond()
            return 'Sized', token.line, length, self.want(']')
        if self.stands(')'):
            return 'Empty', token.line, self.next().line
        if self.stands('void') and self.tokens[self.at + 1].spelling == ')':
            word = self.next().line
            return 'VoidOnly', token.line, word, self.next().line
        first, others = self.param(), []
        while self.stands(','):
            comma = self.next().line
            others.append((comma, self.param()))
        return 'Params', token.line, first, linked('NoParam', 'AndParam', others), self.want(')')

    def param(self):
        specs, pointers = self.specs(), self.pointers()
        token = self.tokens[self.at]
        if token.form == 'name' and token.spelling not in KEYWORDS:
            name = self.name()
            return 'Named', specs, ('Declares', pointers, name, self.suffixes())
        suffixes = self.suffixes()
        if not pointers and suffixes == ('NoSuffix',) and specs[2] == ('NoSpec',) and specs[1][0] == 'OneWord' \
                and specs[1][1].kind == ('Keyword', ('Void',)):
            raise NoTree('a parameter is void')
        return 'Unnamed', specs, pointers, suffixes

    def begun(self):
        declarator, init = self.declarator(), NONE
        if self.stands('='):
            line = self.next().line
            init = some((line, self.init()))
        return Record(declarator=declarator, init=init)

    def init(self):
        if self.tokens[self.at].form == 'text':
            return 'Quoted', symbol(self.next())
        if not self.stands('{'):
            return 'Value', self.assign()
        opening, first, others, last = self.next().line, self.init(), [], NONE
        while self.stands(','):
            comma = self.next().line
            if self.stands('}'):
                last = some(comma)
                break
            others.append((comma, self.init()))
        return 'Listed', opening, first, linked('NoInit', 'AndInit', others), last, self.want('}')

    def rest_of_declaration(self, specs, first):
        """A declaration behind its specifiers, and behind its first declarator if it has one."""
        declared = NONE
        if first is not None:
            others = []
            while self.stands(','):
                comma = self.next().line
                others.append((comma, self.begun()))
            declared = some((first, tuple(others)))
        return Record(specs=specs, declared=declared, semicolon=self.want(';'))

    def declaration(self):
        specs = self.specs()
        return self.rest_of_declaration(specs, None if self.stands(';') else self.begun())

    # ---- statements
    def condition(self):
        opening, e = self.want('('), self.expression()
        return Record(opening=opening, expr=e, closing=self.want(')'))

    def any_before(self, spelling):
        return NONE if self.stands(spelling) else some(self.expression())

    def block(self):
        opening, declarations, statements = self.want('{'), [], []
        while self.begins_specs():
            declarations.append(self.declaration())
        while not self.stands('}'):
            statements.append((self.statement(),))
        return 'Block', opening, tuple(declarations), linked('NoStatement', 'AndStatement', statements), self.next().line

    def statement(self):
        if self.stands('{'):
            return 'Braced', self.block()
        token = self.tokens[self.at]
        read = {'if': self.if_chain, 'while': self.while_loop, 'do': self.do_loop, 'for': self.for_loop, 'switch': self.switch,
                'break': self.leaving, 'continue': self.leaving, 'return': self.returning}.get(token.spelling)
        if read is not None and token.form == 'name':
            return read(self.next())
        e = self.any_before(';')
        return 'Plain', e, self.want(';')

    def arm(self, line):
        condition = self.condition()
        return 'Arm', line, condition, self.statement()

    def if_chain(self, token):
        first = self.arm(token.line)
        return 'Chain', first, self.arms()

    def arms(self):
        if not self.stands('else'):
            return ('NoElse',)
        line = self.next().line
        if self.stands('if'):
            arm = self.arm(self.next().line)
            return 'ElseIf', line, arm, self.arms()
        return 'Else', line, self.statement()

    def while_loop(self, token):
        condition = self.condition()
        return 'While', token.line, condition, self.statement()

    def do_loop(self, token):
        body = self.statement()
        word = self.want('while')
        condition = self.condition()
        return 'Do', token.line, body, word, condition, self.want(';')

    def for_loop(self, token):
        opening, begin = self.want('('), self.any_before(';')
        first, condition = self.want(';'), self.any_before(';')
        second, step = self.want(';'), self.any_before(')')
        head = Record(opening=opening, begin=begin, first=first, condition=condition, second=second, step=step, closing=self.want(')'))
        return 'For', token.line, head, self.statement()

    def switch(self, token):
        condition, opening, items = self.condition(), self.want('{'), []
        while not self.stands('}'):
            if self.stands('case'):
                line = self.next().line
                value = self.cond()
                items.append(('AndLabel', ('Case', line, value, self.want(':'))))
            elif self.stands('default'):
                line = self.next().line
                items.append(('AndLabel', ('Default', line, self.want(':'))))
            else:
                items.append(('AndInner', self.statement()))
        made = ('NoItem',)
        for item in reversed(items):
            made = item + (made,)
        return 'Switch', token.line, condition, opening, made, self.next().line

    def leaving(self, token):
        return token.spelling.capitalize(), token.line, self.want(';')

    def returning(self, token):
        e = self.any_before(';')
        return 'Return', token.line, e, self.want(';')

    # ---- units
    def item(self):
        specs = self.specs()
        if self.stands(';'):
            return 'Declaration', self.rest_of_declaration(specs, None)
        declarator = self.declarator()
        if self.stands('{'):
            if not ends_bracketed(declarator[3]):
                raise NoTree('a body behind no function')
            return 'Function', specs, declarator, self.block()
        init = NONE
        if self.stands('='):
            line = self.next().line
            init = some((line, self.init()))
        return 'Declaration', self.rest_of_declaration(specs, Record(declarator=declarator, init=init))

    def unit(self):
        items = []
        while self.tokens[self.at].form != 'end':
            items.append(self.item())
        return tuple(items)


def ends_bracketed(suffixes):
    last = None
    while suffixes[0] == 'AndSuffix':
        last, suffixes = suffixes[1][0], suffixes[2]
    return last in ('Empty', 'VoidOnly', 'Params')


def unit_of(text):
    """The tree of a text."""
    try:
        return Reader(marked(program_tokens(text))).unit()
    except IndexError:
        raise NoTree('the text ends early') from None
