"""Runs the rules on names and types, as type_rules has them, and compares what they say of a text with what the checker says of it: the
typed tree, node by node, or the kind and the line of the first broken rule. Arguments: the program picc_show, how many changed texts, the
seed, how many processes (0: none but this one, and what was never reached is told), and the files of texts. A changed text is one of these
files' texts in which a few tokens were replaced, dropped or doubled, with its lines broken elsewhere. Texts without a tree are passed over,
and each that the compiler's parser and the one of checks/lib/trees.py judge otherwise is told."""
import json
import os
import random
import re
import subprocess
import sys
import tempfile

import programs
from code_text import lines_in, program
from interpreter import definition
from jobs import results, tell_unreached, told
from tables import texts
from trees import KEYWORDS, NoTree, tokens_of, unit_of

KINDS = 'name again declare size incomplete constant initializer member call address assign operand convert return jump'.split()
CLASSES = [
    'char short int long signed unsigned void'.split(), 'const volatile'.split(), 'static auto register typedef'.split(), ['break', 'continue'],
    '* / % + - << >> < > <= >= == != & ^ |'.split() + ['&&', '||', ','], '= *= /= %= += -= <<= >>= &= ^= |='.split(), ['++', '--'],
    ['.', '->'], '& * + - ~ !'.split(), ['case 0', 'default', 'case 1']]
NUMBERS = ['0', '1', '2', '3', '5', '65535', '65536', '32767', '32768', '40000', '0x8000', '1u', '1L', '0L', '2ul', '4294967295', "'a'", "'\\0'"]
WHOLE = [
    ['', 'const ', 'volatile ', 'register ', 'static ', 'interrupt ', 'unsigned ', 'struct s '], ['', '*', '**', '*const '],
    ['', '[2]', '[]', '[0]', '(void)', '()', '[2][3]', '(int q)', '[sizeof x]'],
    ['', '&', '*', '!', '-', '~', '++', 'sizeof ', '(char)', '(int*)', '(void)', '(long)', '(struct s)', '(struct s{int a;}*)', '1?0:', '0?x:', '(char*)0==', 'x-'],
    ['', '[0]', '()', '(1)', '.a', '->a', '++', '--', '+1', '-1', ',1', '?1:0', '?p:0', '==0', '-=p', '+=1L', '<<1L', '&&p'], ['', '={1}', '={1,2}', '=0', '="ab"', '=x', '=&x']]


def texts_in(name):
    """The C texts of a file with what is wanted of each, or None: it is one, or has them as literals or in tables, or as members of JSON objects, one a line."""
    with open(name, encoding='latin-1' if name.endswith('.c') else 'utf-8') as file:
        content = file.read()
    if name.endswith('.rt'):
        return [(text, None) for text in texts(content) if ';' in text or '{' in text]
    if name.endswith('.jsonl'):
        cases = (json.loads(line) for line in content.splitlines())
        return [(case['text'], case.get('want')) for case in cases if case.get('text')]
    return [(content, None)]


def shown(show, folder, text):
    """What the checker says: ('Ok', a program), ('Err', kind, line), or None where there is no tree."""
    name = os.path.join(folder, 'a.c')
    with open(name, 'w', encoding='latin-1') as file:
        file.write(text)
    ran = subprocess.run([show, 'tree', name], stdout=subprocess.PIPE, timeout=120)
    printed = ran.stdout.decode('latin-1')
    if ran.returncode == 0:
        return 'Ok', program(lines_in(printed)[0])
    if ran.returncode != 1:
        raise OSError('picc_show ends with %d' % ran.returncode)
    if not printed:
        return None
    kind, line = lines_in(printed)[0].parts
    return 'Err', kind, line


def stated(text):
    """What the rules say, in the same form."""
    try:
        unit = unit_of(text)
    except NoTree:
        return None
    answer = definition('Rattle.type_rules.specs.Units', 'judged_unit')(unit)
    return answer if answer[0] == 'Ok' else ('Err', answer[1].kind[0], answer[1].line)


def at_variance(a, b, way=''):
    """Where two values differ first, in words."""
    if type(a) is not type(b):
        return '%s: %r, %r' % (way, a, b)
    if hasattr(a, 'updated'):
        a, b = a.__dict__, b.__dict__
        return next((at_variance(a[f], b.get(f), way + '.' + f) for f in a if a[f] != b.get(f)), way)
    if isinstance(a, tuple) and len(a) == len(b):
        return next((at_variance(x, y, '%s.%d' % (way, i)) for i, (x, y) in enumerate(zip(a, b)) if x != y), way)
    return '%s: %r, %r' % (way, a, b)


def wanted_answer(want):
    found = re.match(r'a\.c:(\d+): error 5: (\w+)$', want or '')
    return ('Err', found.group(2).capitalize(), int(found.group(1))) if found else None


def one(job):
    """Compares a text. The answer: a tally, and what differs."""
    show, label, text, want = job
    try:
        by_rules = stated(text)
        wanted = wanted_answer(want)
        if wanted is not None and by_rules != wanted:
            return {}, '%s: wanted %r, the rules say %r\n%s' % (label, wanted, by_rules, text)
        if by_rules is None and label.startswith('changed'):
            return {'without a tree': 1}, None
        with tempfile.TemporaryDirectory() as folder:
            by_code = shown(show, folder, text)
        if by_rules is None and by_code is None:
            return {'without a tree': 1}, None
        if by_code is None and (label.startswith('changed') or ' error 12:' in (want or '')):
            return {'beyond a limit': 1}, None
        if by_rules != by_code:
            return {}, '%s: the rules and the checker differ%s\n%s' % (label, at_variance(by_rules, by_code)[:400], text[:2000])
    except Exception as error:      # a definition without a clause for what came
        import traceback
        return {}, '%s: %r\n%s\n%s' % (label, error, traceback.format_exc(limit=-3), text)
    return {'typed' if by_rules[0] == 'Ok' else by_rules[1].lower(): 1}, None


def spelled(tokens, rng, breaks):
    return ''.join(t + ('\n' if rng.randrange(100) < breaks else ' ') for t in tokens)


def changed_tokens(tokens, rng):
    """These tokens with one of them replaced by one of its class, dropped, doubled or moved, or with a piece put before it."""
    tokens, at = list(tokens), rng.randrange(len(tokens))
    token, way = tokens[at], rng.randrange(20)
    names = [t for t in tokens if re.match(r'[A-Za-z_]\w*$', t) and t not in KEYWORDS]
    classes = [c for c in CLASSES if token in c]
    if way < 12 and classes:
        tokens[at] = rng.choice(rng.choice(classes))
    elif way < 12 and token in names:
        tokens[at] = rng.choice(names)
    elif way < 12 and token[0].isdigit():
        tokens[at] = rng.choice(NUMBERS + names)
    elif way < 14:
        del tokens[at]
    elif way < 15:
        tokens.insert(at, tokens[at])
    elif way < 19:
        tokens.insert(at, rng.choice(rng.choice(WHOLE)))
    else:
        other = rng.randrange(len(tokens))
        tokens[at], tokens[other] = tokens[other], tokens[at]
    return [t for t in tokens if t] or [';']


def changed(text, rng):
    """A text with up to four changes, which has a tree still if one of some tries has one."""
    try:
        tokens = [t.spelling for t in tokens_of(text)]
    except NoTree:
        return text
    if '#' in tokens or not tokens or len(tokens) > 3000:
        return text
    for _ in range(rng.randrange(1, 5)):
        for _ in range(8):
            tried = changed_tokens(tokens, rng)
            try:
                unit_of(' '.join(tried))
            except (NoTree, RecursionError):
                continue
            tokens = tried
            break
    return spelled(tokens, rng, 15)


def jobs(show, count, seed, files):
    base = []
    for name in files:
        for at, (text, want) in enumerate(texts_in(name) if os.path.exists(name) else []):
            base.append(text)
            yield show, '%s, text %d' % (os.path.basename(name), at + 1), text, want
    for at in range(count):
        rng = random.Random(seed + at)
        if at % 10 == 9:
            text = programs.program(rng)
        else:
            text = rng.choice(base) if base else programs.program(rng)
        yield show, 'changed text %d' % (seed + at), changed(text, rng), None


def main():
    show, count, seed, processes = sys.argv[1], int(sys.argv[2]), int(sys.argv[3]), int(sys.argv[4])
    status = told('rules', results(processes, one, jobs(show, count, seed, sys.argv[5:]), 8))
    if processes == 0:
        tell_unreached('rules', 'type_rules')
    return status


if __name__ == '__main__':
    sys.exit(main())
