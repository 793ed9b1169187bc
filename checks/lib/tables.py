"""The C texts that stand in the source of a crate of tests: as literals, or in tables, behind ` => ` or as the field `@a.c=` of a line."""
import re

LITERAL = re.compile(r'r#"(.*?)"#|"((?:[^"\\]|\\.)*)"', re.S)


def unescaped(text):
    text = re.sub(r'\\\n\s*', '', text)
    return re.sub(r'\\(.)', lambda m: {'n': '\n', 't': '\t', 'r': '\r', '0': '\0'}.get(m.group(1), m.group(1)), text)


def lines_of(table):
    """The texts of a table, but those in which a part is repeated, which are long; crates/front_tests/src/notation.rt says how they are
    written down."""
    for line in table.split('\n'):
        notation = line.partition(' => ')[2]
        if not line.startswith('//') and '`' not in notation:
            yield notation.replace('$', '\n')


def files_of(table):
    """The texts of a table of commands, whose lines have files as their last fields; crates/command_cases/src/lib.rt says how."""
    for line in table.split('\n'):
        for field in line.split('@')[1:]:
            name, _, notation = field.partition('=')
            if not line.startswith('#') and name.endswith('.c') and '`' not in notation:
                yield notation.replace('$', '\n')


def texts(source):
    """All of them, and texts that aren't C."""
    for found in LITERAL.finditer(source):
        raw, plain = found.groups()
        literal = unescaped(plain) if raw is None else raw
        if '@a.c=' in literal:
            yield from files_of(literal)
        elif raw is None:
            yield literal
        elif ' => ' in raw:
            yield from lines_of(raw)
        else:
            yield raw
