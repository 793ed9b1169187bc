"""Compares the numbers of docs/trust.md with the files that they count. Arguments: the folder of the repository, the name that begins
each printed line, and `write` to put the right numbers into the page."""
import re
import sys

from chain import chain, lines_of

HEADLINE = ['headline/OnChip', 'hex_image/HexFile', 'hex_image/HexText', 'pic_map/MapFile', 'pic_map/MapText']
CONTRACT = ['picc_cli/Command', 'picc_cli/CommandView', 'picc_cli/Finished', 'picc_cli/Simulation', 'picc_cli/Traced', 'host_io/Host']
# what is counted, and what is left out of the count with all that it stands on
TOTALS = {
    'In all': (HEADLINE, []),
    'contract': (CONTRACT, []),
    'passes': (['picc_cli/Made'], CONTRACT),
    'source': (['headline/SourceOf', 'picc_core/Typed'], []),
}
ROW = re.compile(r'^\| `(\w+/\w+)` \| (\d+) \|', re.MULTILINE)


def total(top, names, without):
    left_out = chain(top, without)
    files = [name for name in chain(top, names) if name not in left_out]
    return f'{len(files)} files, {sum(lines_of(top, name) for name in files)} lines'


def corrected(top, page):
    """The page with the right numbers."""
    for label, (names, without) in TOTALS.items():
        page = re.sub(label + r': \d+ files, \d+ lines', f'{label}: {total(top, names, without)}', page)
    return ROW.sub(lambda row: f'| `{row[1]}` | {lines_of(top, row[1])} |', page)


def differences(top, page):
    """What is wrong with the page: the files of its table, and its lines with numbers."""
    listed, wanted = [row[0] for row in ROW.findall(page)], chain(top, HEADLINE)
    yield from (f'{name} stands in the table, and the headline does not stand on it' for name in listed if name not in wanted)
    yield from (f'{name} is not in the table, and the headline stands on it' for name in wanted if name not in listed)
    for line, right in zip(page.splitlines(), corrected(top, page).splitlines()):
        if line != right:
            yield f'the page has {line!r}, right is {right!r}'


def main():
    top, name, *write = sys.argv[1:]
    path = top + '/docs/trust.md'
    with open(path, encoding='utf-8') as file:
        page = file.read()
    if write:
        page = corrected(top, page)
        with open(path, 'w', encoding='utf-8') as file:
            file.write(page)
    found = list(differences(top, page))
    for difference in found:
        print(f'{name}: docs/trust.md: {difference}')
    return 1 if found else 0


if __name__ == '__main__':
    sys.exit(main())
