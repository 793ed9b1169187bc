"""Runs definitions of specs/*.antt: reads the part of the language of specifications that they are written in, and translates them to
Python when they are first asked for, with all that they use.

    step = definition('Rattle.src_rules.specs.Step', 'step')
    outcome = step(setting, state)

A number is an int, Bool is bool, a list or a pair is a tuple, a constructor is a tuple with its name first, as ('Some', 3) or ('None',), a
record is a Record, a function a Function; library.py has these, and the definitions of the standard library. `do` takes the `>>=` of its
file. How many fields the constructors of the code's own types have, the sources in src/ say. Clauses are tried in order. Types and
declarations of records are skipped; so are proofs, which no definition calls. REACHED tells how often each clause was taken: what was
never reached was never tried.

Two things make runs of many thousand steps possible, and change no value: the answers of the functions in KEPT are kept, and where one
of the functions in WRITES makes a memory of another one by writing one byte, it is made as a table and not as a chain of functions.
"""
import functools
import keyword
import os
import re
import sys

from library import CONSTANTS, Function, Memory, Record, Rest, STANDARD, applied, rest_of

sys.setrecursionlimit(100000)
CRATES = os.path.join(os.path.dirname(os.path.abspath(__file__)), '..', '..', 'crates')
KEPT = {'label_from', 'row_of', 'register_at', 'is_register', 'object_at', 'general_at', 'handler_in', 'main_in', 'bytes_together'}
# by crate and name, how many arguments such a function takes before it is a memory: the memory before, the place and the byte
WRITES = {('src_values', 'with_byte'): 4, ('core_code', 'with_byte'): 3, ('sym_code', 'with_byte'): 3}
REACHED = {}


# ---- tokens
TOKEN = re.compile(r"""\s*(?:
    (?P<comment>--.*)
  | (?P<number>0x[0-9a-fA-F_]+|\d[\d_]*)
  | (?P<empty>\[\])
  | (?P<sign>↦|←|\+ℤ|-ℤ|\*ℤ|\+\+|&&|\|\||==|∷|→|≤ℤ|[+\-*/%^=λ{}();,:\[\]|])
  | (?P<field>\.(?=[A-Za-z_0-9]))
  | (?P<dot>\.)
  | (?P<name>◌>>=◌|[A-Za-z_ℕℤ«][\w'ℕℤ»-]*)
  | "(?P<text>[^"]*)"
)""", re.X)


def column_of(text, at):
    """How many characters stand before a token that is the first on its line; None for another one."""
    begin = text.rfind('\n', 0, at) + 1
    return None if text[begin:at].strip() else at - begin


def tokens_of(text):
    """Pairs of a kind and a value, and the column of each. A field is a dot with no blank before it."""
    made, columns, at = [], [], 0
    while text[at:].strip():
        found = TOKEN.match(text, at)
        if found is None:
            raise SyntaxError(text[at:at + 40])
        kind = found.lastgroup
        value = found.group(kind)
        if kind == 'number':
            value = int(value.replace('_', ''), 0)
        elif kind == 'field' and text[found.start(kind) - 1].isspace():
            kind = 'dot'
        if kind == 'dot':
            kind = 'sign'
        if kind != 'comment':
            made.append((kind, value))
            columns.append(column_of(text, found.start(found.lastgroup)))
        at = found.end()
    return made + [('end', None)], columns + [0]


# ---- expressions and patterns, as tuples with their form first
class Reader:
    """Reads tokens from the left to the right."""
    LEVELS = (('||',), ('&&',), ('==',), ('∷', '++'), ('+', '-', '+ℤ', '-ℤ'), ('*', '/', '%', '*ℤ'), ('^',))
    GROUP_LEFT = (4, 5)

    def __init__(self, tokens_and_columns):
        self.tokens, self.columns = tokens_and_columns
        self.at, self.block = 0, -1     # block: the column of the steps of the innermost `do`

    def stands(self, value, kind='sign'):
        return self.tokens[self.at] == (kind, value)

    def next(self):
        self.at += 1
        return self.tokens[self.at - 1]

    def want(self, value):
        if self.next()[1] != value:
            raise SyntaxError('%r is missing at %r' % (value, self.tokens[self.at - 8:self.at + 2]))

    def taken(self, value):
        """Whether this sign stands here; it is passed then."""
        found = self.stands(value)
        self.at += found
        return found

    def is_opened(self):
        return self.stands('λ') or any(self.stands(word, 'name') for word in ('if', 'let', 'elim', 'do'))

    def expression(self):
        if self.stands('if', 'name'):
            return self.choice()
        if self.stands('let', 'name'):
            return self.let()
        if self.stands('elim', 'name'):
            return self.cases()
        if self.stands('do', 'name'):
            return self.steps()
        if self.stands('λ'):
            return self.function()
        return self.operation(0)

    def choice(self):
        self.next()
        test = self.expression()
        self.want('then')
        chosen = self.expression()
        self.want('else')
        return 'if', test, chosen, self.expression()

    def let(self):
        self.next()
        name = self.next()[1]
        while not self.stands('='):     # its type
            self.next()
        self.want('=')
        value = self.expression()
        self.want('in')
        return 'let', name, value, self.expression()

    def cases(self):
        self.next()
        of, arms = self.atom(), []
        self.want('[')
        while self.taken('|'):
            pattern = self.pattern()
            self.want('↦')
            arms.append((pattern, self.expression()))
        self.want(']')
        return 'cases', of, arms

    def steps(self):
        """`do` with its steps, one a line: each but the last gives a name to what it gives."""
        self.next()
        around, self.block = self.block, self.columns[self.at]
        made = self.step()
        self.block = around
        return made

    def step(self):
        if self.tokens[self.at + 1] != ('sign', '←'):
            return self.expression()
        name = self.next()[1]
        self.want('←')
        first = self.expression()
        return 'application', ('name', '◌>>=◌'), [first, ('function', [name], self.step())]

    def begins_step(self):
        column = self.columns[self.at]
        return column is not None and column <= self.block

    def function(self):
        self.next()
        names = []
        while not self.taken('.'):
            if self.taken('('):
                names.append(self.next()[1])
                while not self.taken(')'):      # its type
                    self.next()
            else:
                names.append(self.next()[1])
        return 'function', names, self.expression()

    def operation(self, level):
        if level == len(self.LEVELS):
            return self.application()
        left = self.operation(level + 1)
        while self.tokens[self.at][0] == 'sign' and self.tokens[self.at][1] in self.LEVELS[level]:
            sign = self.next()[1]
            if level in self.GROUP_LEFT:
                left = 'operation', sign, left, self.operation(level + 1)
            else:
                return 'operation', sign, left, self.expression() if self.is_opened() else self.operation(level)
        return left

    def application(self):
        function, arguments = self.atom(), []
        while self.is_argument():
            arguments.append(self.expression() if self.stands('λ') else self.atom())
        return ('application', function, arguments) if arguments else function

    def is_argument(self):
        kind, value = self.tokens[self.at]
        if self.begins_step():
            return False
        if kind == 'name':
            return value not in ('then', 'else', 'in')
        return kind in ('number', 'empty', 'text') or (kind == 'sign' and value in ('(', 'λ'))

    def atom(self):
        kind, value = self.next()
        if kind in ('number', 'empty', 'text'):
            made = kind, value
        elif (kind, value) == ('sign', '('):
            made = self.bracket()
        elif (kind, value) == ('name', 'record'):
            made = self.record()
        elif kind == 'name':
            made = 'name', value
        else:
            raise SyntaxError('no expression begins with %r' % value)
        while self.tokens[self.at][0] == 'field':
            self.next()
            made = 'field', made, self.next()[1]
        return made

    def bracket(self):
        parts = [self.expression()]
        while self.taken(','):
            parts.append(self.expression())
        self.want(')')
        return parts[0] if len(parts) == 1 else ('pair', parts)

    def record(self):
        base, fields = None if self.stands('{') else self.atom(), []
        self.want('{')
        while not self.taken('}'):
            name = self.next()[1]
            self.want('=')
            fields.append((name, self.expression()))
            self.taken(';')
        return 'record', base, fields

    def pattern(self):
        first = self.constructor()
        return ('more', first, self.pattern()) if self.taken('∷') else first

    def constructor(self):
        made = self.simple_pattern()
        if made[0] != 'constructor':
            return made
        parts = []
        while self.tokens[self.at][0] in ('number', 'empty', 'name') or self.stands('('):
            parts.append(self.simple_pattern())
        return 'constructor', made[1], parts

    def simple_pattern(self):
        kind, value = self.next()
        if kind == 'number':
            return 'literal', value
        if kind == 'empty':
            return ('empty',)
        if (kind, value) == ('sign', '('):
            made = self.pattern()
            self.want(')')
            return made
        while self.tokens[self.at][0] == 'field':
            self.next()
            value = self.next()[1]
        if value == '_':
            return ('anything',)
        if value in ('zero', 'true', 'false'):
            return 'literal', CONSTANTS[value]
        if value == 'suc' or value[0].isupper():
            return 'constructor', value, []
        return 'variable', value

    def clause(self):
        """The patterns and the expression of a clause."""
        self.next()
        patterns = []
        while not self.taken('='):
            patterns.append(self.simple_pattern())
        made = self.expression()
        if self.next()[0] != 'end':
            raise SyntaxError('more stands behind an expression: %r' % (self.tokens[self.at - 3:self.at + 3],))
        return patterns, made


# ---- modules
class Module:
    """What a file of specs/ has: the clauses of each definition, its constructors with their number of fields, what it takes from
    other files, and names for these files."""

    def __init__(self, path):
        self.path, self.clauses, self.constructors, self.imports, self.files = path, {}, {}, {}, {}
        parts = path.split('.')
        self.crate = parts[1]
        with open(os.path.join(CRATES, self.crate, 'specs', *parts[3:-1], parts[-1] + '.antt'), encoding='utf-8') as file:
            for item in items_in(file.read()):
                self.read(item)

    def read(self, item):
        words = re.sub(r'^(?:(?:unfoldable|abbrev|pub) )*', '', item)
        if words.startswith('use '):
            self.read_use(words)
        elif words.startswith('data '):
            for line in words.split('\n')[1:]:
                names, _, kind = line.partition(' : ')
                for name in names.split(','):
                    self.constructors[name.strip()] = arrows_in(kind)
        elif not words.startswith(('record ', 'module ', 'infixl ')):
            words = re.sub(r'^(\(.*?\)|\w+) >>= (\w+) =', r'◌>>=◌ \1 \2 =', words)
            name = re.match(r"◌>>=◌(?! :)|[\w']+", words)
            if name and not re.match(r"[\w']+ :", words):
                self.clauses.setdefault(name.group(), []).append(words)

    def read_use(self, words):
        path, names, alias = re.match(r'use ([\w.«»-]+?)(?:\.\{(.*)\}| as (\w+))?$', words.replace('\n', ' ')).groups()
        if alias:
            self.files[alias] = path
        for name in names.split(',') if names else ():
            there, _, here = name.strip().partition(' as ')
            self.imports[here.strip() or there.strip()] = path, there.strip()


def items_in(text):
    """The items of a file: each begins at the left, or stands below a line `mutual`."""
    items, is_mutual = [], False
    for line in text.split('\n'):
        line = re.sub(r'(^|\s)--.*$', '', line).rstrip()
        if not line:
            continue
        if line in ('mutual', 'unfoldable mutual'):
            is_mutual = True
            continue
        is_mutual = is_mutual and line.startswith('  ')
        line = line[2:] if is_mutual else line
        if line[0] in ' })]':
            items[-1] += '\n' + line
        else:
            items.append(line)
    return items


def arrows_in(kind):
    """How many arguments a constructor of this type has."""
    depth = count = 0
    for c in kind:
        depth += (c in '({') - (c in ')}')
        count += c == '→' and depth == 0
    return count


@functools.lru_cache(None)
def module(path):
    return Module(path)


# ---- types that the code declares
@functools.lru_cache(None)
def declared(path):
    """Of the enum that a path of declared types names: how many fields each variant has."""
    parts = [part for part in path.split('.') if part != 'TheVariants']
    at = parts.index('declared') + 1
    inner, name = parts[at:-1], parts[-1]
    for file in (inner, inner[:-1], []):
        source = os.path.join(CRATES, parts[1], 'src', *(file or ['lib'])) + '.rt'
        if os.path.exists(source):
            with open(source, encoding='utf-8') as text:
                found = variants_in(text.read(), name)
            if found:
                return found
    raise NameError('no enum ' + path)


def variants_in(source, name):
    found = re.search(r'\benum %s\b[^{]*\{' % name, source)
    if found is None:
        return {}
    body = re.sub(r'//.*|#\[[^\]]*\]', '', source[found.end():])
    made = {}
    for variant in parts_of(body):
        word = re.match(r'\w+', variant).group()
        made[word] = len(parts_of(variant[len(word):].strip()[1:]))
    return made


def parts_of(text):
    """What stands between the commas up to the bracket that closes."""
    depth, parts = 0, ['']
    for c in text:
        depth += (c in '({[<') - (c in ')}]>')
        if depth < 0:
            break
        if c == ',' and depth == 0:
            parts.append('')
        else:
            parts[-1] += c
    return [part.strip() for part in parts if part.strip()]


# ---- translation
SCOPE = {'applied': applied, 'Record': Record, 'Function': Function, 'rest_of': rest_of}
COUNTS = {}     # how many patterns the clauses of a definition have, by its name in SCOPE


def no_clause(name):
    raise LookupError('no clause of %s fits' % name)


SCOPE['no_clause'] = no_clause
SIGNS = {'==': '==', '+': '+', '*': '*', '/': '//', '%': '%', '^': '**', '&&': 'and', '||': 'or', '+ℤ': '+', '-ℤ': '-', '*ℤ': '*', '++': '+'}


def defined(path, name):
    """The name in SCOPE of a definition, a constructor or a name of the standard library."""
    if path.startswith('Rattle.std'):
        return standard(name)
    if '.declared.' in path:
        return constructed(name, declared(path)[name])
    there = module(path)
    if name in there.clauses:
        return translated(there, name)
    if name in there.constructors:
        return constructed(name, there.constructors[name])
    if name in there.imports:
        return defined(*there.imports[name])
    raise NameError('%s.%s' % (path, name))


def standard(name):
    if name in CONSTANTS:
        return repr(CONSTANTS[name])
    key = 'std_' + name.replace('ℤ', 'Z')
    if key not in SCOPE:
        count, body = STANDARD[name]
        SCOPE[key], SCOPE[key + '__body'], COUNTS[key] = Function(count, body), body, count
    return key


def constructed(name, count):
    if count == 0:
        return repr((name,))
    key = 'new_%s_%d' % (name, count)
    SCOPE.setdefault(key, Function(count, lambda *parts: (name,) + parts))
    return key


def translated(there, name):
    key = 'the_%s_%s' % (there.path.replace('.', '_'), name.replace("'", '_q').replace('◌>>=◌', 'bind'))
    if key not in COUNTS:
        clauses = [Reader(tokens_of(clause)).clause() for clause in there.clauses[name]]
        COUNTS[key] = len(clauses[0][0])
        exec(compile(python_of(there, key, clauses), key, 'exec'), SCOPE)
        finish(there.crate, name, key)
    return key


def finish(crate, name, key):
    count, body = COUNTS[key], SCOPE[key + '__body']
    if name in KEPT and count > 0:
        body = SCOPE[key + '__body'] = with_answers_kept(body)
    SCOPE[key] = Function(count, body) if count > 0 else body()
    if (crate, name) in WRITES:
        SCOPE[key + '__write'] = lambda m, *rest: m.written(*rest) if isinstance(m, Memory) else Function(count, body, (m,) + rest)
        COUNTS[key + '__write'] = WRITES[crate, name]


def with_answers_kept(function):
    """A long list, a record or a function counts as the same only where it is the same object."""
    answers, held = {}, []

    def kept(*arguments):
        key = tuple(id(a) if isinstance(a, (Record, Function)) or (isinstance(a, (tuple, Rest)) and len(a) > 6) else a for a in arguments)
        if key not in answers:
            if len(answers) > 20000:
                answers.clear()
                held.clear()
            held.append(arguments)
            answers[key] = function(*arguments)
        return answers[key]
    return kept


def python_of(there, key, clauses):
    """The source of the Python function that a definition becomes."""
    count = COUNTS[key]
    arguments = ['a%d' % i for i in range(count)]
    lines = ['def %s__body(%s):' % (key, ', '.join(arguments))]
    SCOPE[key + '__reached'] = REACHED[key] = [0] * len(clauses)
    for number, (patterns, expression) in enumerate(clauses):
        if len(patterns) != count:
            raise SyntaxError('the clauses of %s have several numbers of patterns' % key)
        tests, names = [], []
        for argument, pattern in zip(arguments, patterns):
            match(pattern, argument, tests, names)
        pad = '    '
        if tests:
            lines.append('    if %s:' % ' and '.join(tests))
            pad = '        '
        lines.append('%s%s__reached[%d] += 1' % (pad, key, number))
        lines += ['%s%s = %s' % (pad, local(name), value) for name, value in names]
        lines.append('%sreturn %s' % (pad, python(expression, there, {name for name, _ in names})))
    return '\n'.join(lines + ['    no_clause(%r)' % key])


def local(name):
    return 'v_' + re.sub('[«»-]', '', name.replace("'", '_q'))


def field(name):
    return name + '_' if keyword.iskeyword(name) else name


def match(pattern, value, tests, names):
    """What has to hold for a pattern to fit, and the names that it gives."""
    form = pattern[0]
    if form == 'variable':
        names.append((pattern[1], value))
    elif form == 'literal':
        tests.append('%s == %r' % (value, pattern[1]))
    elif form == 'empty':
        tests.append('not %s' % value)
    elif form == 'more':
        tests.append(value)
        match(pattern[1], value + '[0]', tests, names)
        match(pattern[2], 'rest_of(%s)' % value, tests, names)
    elif form == 'constructor' and pattern[1] == 'suc':
        tests.append('%s > 0' % value)
        match(pattern[2][0], '(%s - 1)' % value, tests, names)
    elif form == 'constructor':
        tests.append('%s[0] == %r' % (value, pattern[1]))
        for i, part in enumerate(pattern[2]):
            match(part, '%s[%d]' % (value, i + 1), tests, names)


def python(e, there, scope):
    """The Python expression of an expression, in whose scope these local names are."""
    return globals()['python_' + e[0]](there, scope, *e[1:])


def python_number(there, scope, value):
    return repr(value)


def python_text(there, scope, value):
    return repr(tuple(value.encode()))


def python_empty(there, scope, value):
    return '()'


def python_if(there, scope, test, chosen, otherwise):
    return '(%s if %s else %s)' % tuple(python(e, there, scope) for e in (chosen, test, otherwise))


def python_let(there, scope, name, value, body):
    return '(lambda %s: %s)(%s)' % (local(name), python(body, there, scope | {name}), python(value, there, scope))


def python_function(there, scope, names, body):
    return 'Function(%d, lambda %s: %s)' % (len(names), ', '.join(map(local, names)), python(body, there, scope | set(names)))


def python_pair(there, scope, parts):
    return '(%s)' % ', '.join(python(part, there, scope) for part in parts)


def python_cases(there, scope, of, arms):
    made = 'no_clause("cases")'
    for pattern, body in reversed(arms):
        tests, names = [], []
        match(pattern, 'case', tests, names)
        inner = python(body, there, scope | {name for name, _ in names})
        chosen = '(lambda %s: %s)(%s)' % (', '.join(local(name) for name, _ in names), inner, ', '.join(value for _, value in names))
        made = '(%s if %s else %s)' % (chosen, ' and '.join(tests) or 'True', made)
    return '(lambda case: %s)(%s)' % (made, python(of, there, scope))


def python_operation(there, scope, sign, left, right):
    a, b = python(left, there, scope), python(right, there, scope)
    if sign == '∷':
        return '((%s,) + %s)' % (a, b)
    return 'max(0, %s - %s)' % (a, b) if sign == '-' else '(%s %s %s)' % (a, SIGNS[sign], b)


def python_record(there, scope, base, fields):
    made = ', '.join('%s=%s' % (field(name), python(value, there, scope)) for name, value in fields)
    return 'Record(%s)' % made if base is None else '%s.updated(%s)' % (python(base, there, scope), made)


def python_field(there, scope, of, name):
    """A part of a pair, a name of another file, a variant of a type, or a field of a record."""
    if isinstance(name, int):
        return '%s[%d]' % (python(of, there, scope), name)
    if of[0] == 'name' and of[1] not in scope:
        if of[1] in there.files:
            return defined(there.files[of[1]], name)
        if of[1] in there.imports and '.declared.' in there.imports[of[1]][0]:
            return defined(there.imports[of[1]][0], name)
        if of[1][0].isupper():
            return defined(there.imports[of[1]][0] if of[1] in there.imports else there.path, name)
    return '%s.%s' % (python(of, there, scope), field(name))


def python_name(there, scope, name):
    if name in scope:
        return local(name)
    if name in there.clauses or name in there.constructors or name in there.imports:
        return defined(there.path, name)
    return standard(name)


def python_application(there, scope, function, arguments):
    f, xs = python(function, there, scope), [python(x, there, scope) for x in arguments]
    made = ', '.join(xs)
    if COUNTS.get(f + '__write') == len(xs):
        return '%s__write(%s)' % (f, made)
    if COUNTS.get(f) == len(xs):
        return '%s__body(%s)' % (f, made)
    if f.startswith('new_') and SCOPE[f].count == len(xs):
        return '(%r, %s)' % (f[4:].rpartition('_')[0], made)
    return 'applied(%s, %s)' % (f, made)


def value(path, name):
    """A definition without arguments, or one as a function."""
    return SCOPE[defined(path, name)]


def definition(path, name):
    """A definition as a function."""
    found = value(path, name)
    return found.body if not found.given else found
