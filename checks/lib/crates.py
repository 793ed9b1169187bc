"""Compares the tables of crates in docs/architecture.md with crates.txt: each crate has exactly one row, and each row names a crate. Arguments:
the folder of the repository, the name that begins each printed line, and `write` to add the rows that are missing and to remove those of crates
that there aren't. What a row says is written by hand; a row that is added has the first paragraph of the head of the crate's root file."""
import os
import re
import sys

HEADING = '## The crates\n'
ROW = re.compile(r'^\| (\w+) \| ')


def text_of(path):
    with open(path, encoding='utf-8') as file:
        return file.read()


def crates_in(text):
    """The crates of crates.txt, in its order."""
    lines = (line.split('#')[0].strip() for line in text.splitlines())
    return [line.split(':')[0].strip() for line in lines if line]


def named_in(line):
    """The crate that a line of the page is the row of, or None."""
    row = ROW.match(line)
    return row[1] if row and row[1] != 'Crate' else None


def differences(crates, rows):
    """What is wrong with the rows, as texts."""
    yield from (f'{crate} has no row' for crate in crates if crate not in rows)
    yield from (f'{row} has a row, and crates.txt has no such crate' for row in dict.fromkeys(rows) if row not in crates)
    yield from (f'{row} has {rows.count(row)} rows' for row in dict.fromkeys(rows) if rows.count(row) > 1)


def head_of(top, crate):
    """The first paragraph of the `//!` head of a crate's root file, in one line without a full stop at its end."""
    folder = os.path.join(top, 'crates', crate, 'src')
    root = next(name for name in ('lib.rt', 'main.rt') if os.path.exists(os.path.join(folder, name)))
    words = []
    for line in text_of(os.path.join(folder, root)).splitlines():
        if not line.startswith('//! '):
            break
        words.append(line[4:].strip())
    return ' '.join(words).rstrip('.')


def corrected(top, crates, lines):
    """The lines with a row for each crate: one that is missing comes after the row of the nearest crate above it in crates.txt."""
    lines = [line for line in lines if named_in(line) is None or named_in(line) in crates]
    for index, crate in enumerate(crates):
        if crate not in map(named_in, lines):
            above = next((at for name in reversed(crates[:index]) for at, line in enumerate(lines) if named_in(line) == name), None)
            if above is None:
                above = next(at for at, line in enumerate(lines) if line.startswith('|---'))
            lines.insert(above + 1, f'| {crate} | {head_of(top, crate)} |')
    return lines


def main():
    top, name, *write = sys.argv[1:]
    path = os.path.join(top, 'docs', 'architecture.md')
    before, heading, part = text_of(path).partition(HEADING)
    crates, lines = crates_in(text_of(os.path.join(top, 'crates.txt'))), part.split('\n')
    if write:
        lines = corrected(top, crates, lines)
        with open(path, 'w', encoding='utf-8') as file:
            file.write(before + heading + '\n'.join(lines))
    found = list(differences(crates, [row for row in map(named_in, lines) if row]))
    for difference in found:
        print(f'{name}: docs/architecture.md: {difference}')
    return 1 if found else 0


if __name__ == '__main__':
    sys.exit(main())
