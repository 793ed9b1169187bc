"""Reads contracts: the public calls of a crate, each with its clauses and the comments over them. It reads the text of crates/*/src as
`rt fmt` lays it out, and knows no more of the language than that."""
import collections
import functools
import os
import re

Clause = collections.namedtuple('Clause', 'kind name comment text')
Call = collections.namedtuple('Call', 'crate module name doc clauses')

OWNER = re.compile(r'(?:pub )?(?:impl|trait|struct) ?(?:<.*?> )?(.*?)(?: where.*)? \{$')
FUNCTION = re.compile(r'( *)(pub )?(?:const )?fn (\w+)')
CLAUSE = re.compile(r'(requires|ensures) *(\w*) *\{(.*)\}(;?)$')
FIELD = re.compile(r'pub ghost (\w+): \{(.*)\},$')
DEFINITION = re.compile(r'(?:(?:abbrev|unfoldable|pub|data|record) )*(\w+) ')


def lines_of(path):
    with open(path, encoding='utf-8') as file:
        return [line.rstrip() for line in file]


def crates(top):
    """The crates in the order of crates.txt: each stands behind all that it stands on."""
    lines = lines_of(top + '/crates.txt')
    return [line.split(':')[0] for line in lines if line and not line.startswith('#')]


def sources(top, crate):
    """The files of a crate: path, and the path of the module that it is."""
    root = f'{top}/crates/{crate}/src'
    for folder, _, names in sorted(os.walk(root)):
        for name in sorted(names):
            if name.endswith('.rt'):
                path = os.path.join(folder, name)
                yield path, os.path.relpath(path, root)[:-3].replace('/mod', '').replace('/', '::')


def bare_type(text):
    """The name of a type without its parameters: `Run<'a, H>` is `Run`."""
    return re.split('[<:({ ]', text)[0]


def ended(lines, at):
    """The line at this place with all that belongs to its braces, and the place behind it."""
    text = lines[at].strip()
    while text.count('{') > text.count('}'):
        at += 1
        text += ' ' + lines[at].strip()
    return text, at + 1


def clauses_from(lines, at):
    """The clauses of the function that begins at this line."""
    found, comment = [], []
    while at < len(lines):
        line = lines[at].strip()
        if re.match('requires|ensures', line):
            text, at = ended(lines, at)
            clause = CLAUSE.match(text)
            if not clause:
                raise SystemExit(f'claims: no clause of this form is known: {text}')
            found.append(Clause(clause[1], clause[2], ' '.join(comment), clause[3].strip()))
            comment = []
            if clause[4]:
                break
            continue
        if line.startswith('//'):
            comment.append(line[2:].strip())
        elif line[:1] == '{' or line[-1:] in ('{', ';') or line.endswith('{}'):
            break
        else:
            comment = []
        at += 1
    return found


def documented(lines):
    """Each line that isn't a comment for a reader or an attribute, with its place and the comment that stands over it."""
    doc, at = [], 0
    while at < len(lines):
        line = lines[at].strip()
        if line.startswith('///'):
            doc.append(line[3:].strip())
        elif line.startswith('#['):
            while not line.endswith(']'):
                at += 1
                line = lines[at].strip()
        else:
            yield at, lines[at], ' '.join(doc)
            doc = []
        at += 1


def owner_of(line, traits):
    """Whose methods a block has that begins so, and whether all of them are public: those of a trait of the crate, on any type."""
    named = OWNER.match(line)[1]
    trait, _, own = named.rpartition(' for ')
    is_trait = line.startswith('pub trait') or bare_type(trait) in traits
    return (bare_type(own) if is_trait or not trait else ''), is_trait


def calls_of(crate, module, lines, traits):
    """The public functions and methods of a file, and what each of its public types keeps."""
    owner, trait, kept, type_doc = '', False, [], ''
    for at, line, doc in documented(lines):
        if line.startswith(('impl', 'pub trait', 'pub struct')) and line.endswith('{'):
            owner, trait = owner_of(line, traits)
            kept, type_doc = [], doc
        elif line == '}':
            if kept:
                yield Call(crate, module, owner, type_doc, kept)
            owner, trait, kept = '', False, []
        elif FIELD.match(line.strip()):
            field = FIELD.match(line.strip())
            kept.append(Clause('keeps', field[1], doc, field[2].strip()))
        function = FUNCTION.match(line)
        if function and (function[2] or trait) and bool(function[1]) == bool(owner):
            yield Call(crate, module, f'{owner}::{function[3]}' if owner else function[3], doc, clauses_from(lines, at))


def exports(lines):
    """What the top file of a crate makes public of its own: names, and whole modules. What is another crate's is public there."""
    text = '\n'.join(line for line in lines if not line.lstrip().startswith('//'))
    own = set(re.findall(r'^(?:pub )?mod (\w+);', text, re.MULTILINE))
    names = set()
    for path in re.findall(r'^pub use (?:crate::)?([^;]*);', text, re.MULTILINE):
        if path.split('::')[0] not in own:
            continue
        names.update(re.findall(r'(\w+)(?=[,}\s]|$)', path.split('::')[-1] if '{' not in path else path.split('{')[1]))
    return names, set(re.findall(r'^pub mod (\w+);', text, re.MULTILINE))


@functools.lru_cache(maxsize=None)
def calls(top, crate):
    """The calls that a crate makes public, each with its clauses, in the order of its files."""
    files = dict((module, lines_of(path)) for path, module in sources(top, crate))
    names, modules = exports(files.get('lib', []))
    traits = set(re.findall(r'^pub trait (\w+)', '\n'.join(line for lines in files.values() for line in lines), re.MULTILINE))
    found = []
    for module, lines in files.items():
        whole = module == 'lib' or module.split('::')[0] in modules
        found += [call for call in calls_of(crate, module, lines, traits) if whole or call.name.split('::')[0] in names]
    return found


@functools.lru_cache(maxsize=None)
def definitions(top, module):
    """The comments over the definitions of a module of specs/, by name."""
    path = '{}/crates/{}/specs/{}.antt'.format(top, *module.split('.', 1)) if '.' in module else ''
    found, comment = {}, []
    for line in lines_of(path) if os.path.isfile(path) else []:
        if line.startswith('-- ') and not line.startswith('-- -'):
            comment.append(line[3:].strip())
            continue
        named = DEFINITION.match(line)
        if named and comment and named[1] not in found:
            found[named[1]] = ' '.join(comment)
        comment = []
    return found


@functools.lru_cache(maxsize=None)
def imports(top, crate, module):
    """The modules of specs/ from which a file's contracts have names, by those names, and by the names of whole modules."""
    path = next(path for path, own in sources(top, crate) if own == module)
    found = {}
    for line in lines_of(path):
        used = re.match(r'\s*ghost use Rattle\.(\w+)\.specs\.([\w.]+?)(?:\.\{(.*)\}| as (\w+));', line)
        if used:
            for name in [used[4]] if used[4] else used[3].split(', '):
                found[name] = f'{used[1]}.{used[2]}'
    return found
