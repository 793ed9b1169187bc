"""Compares the pages of memory_page with what `picc build` makes of the same texts. Arguments: the programs memory_page and picc, the name
that begins each printed line, and the texts."""
import os
import re
import subprocess
import sys
import tempfile
from html.parser import HTMLParser

ERASED = 0x3FFF
# Elements without an end.
VOID = {'meta'}


class Page(HTMLParser):
    """The rows of each table, the words with their addresses, and what is wrong with the markup."""

    def __init__(self, text):
        super().__init__()
        self.open, self.faults, self.tables, self.listed = [], [], [], ''
        self.feed(text)
        self.close()
        self.faults += [f'{tag} has no end' for tag in self.open]

    def handle_starttag(self, tag, attributes):
        names = [name for name, _ in attributes]
        if tag in ('script', 'link', 'img', 'iframe') or 'src' in names or 'href' in names:
            self.faults.append(f'{tag} asks for something outside the page')
        if tag not in VOID:
            self.open.append(tag)
        if tag == 'table':
            self.tables.append([])
        elif tag == 'tr':
            self.tables[-1].append([])
        elif tag in ('td', 'th'):
            self.tables[-1][-1].append('')

    def handle_endtag(self, tag):
        if not self.open or self.open.pop() != tag:
            self.faults.append(f'{tag} ends where it does not stand')

    def handle_data(self, data):
        if 'td' in self.open or 'th' in self.open:
            self.tables[-1][-1][-1] += data
        elif 'pre' in self.open:
            self.listed += data


def run(*words):
    done = subprocess.run(words, stdin=subprocess.DEVNULL, capture_output=True)
    return done.returncode, done.stdout


def content(path):
    with open(path, 'rb') as file:
        return file.read()


def files_here():
    return {name: content(name) for name in os.listdir('.') if os.path.isfile(name)}


def words_of(hex_text):
    """The words of a HEX file that aren't erased, by their addresses."""
    memory = {}
    for record in hex_text.split():
        data = bytes.fromhex(record[1:])
        if data[3] == 0:
            address = data[1] * 256 + data[2]
            memory.update((address + place, byte) for place, byte in enumerate(data[4:-1]))
    words = {at // 2: memory[at] + 256 * memory[at + 1] for at in memory if at % 2 == 0}
    return {at: word for at, word in words.items() if word != ERASED}


def places_of(map_text):
    """The lines of a map as rows of a page: name, kind, first address, bytes."""
    roots = {'main': 'main', 'isr': 'handler'}
    for kind, *fields in (line.split() for line in map_text.splitlines()):
        if kind in ('static', 'const'):
            yield fields[0], kind, int(fields[1], 16), int(fields[2])
        elif kind == 'frame':
            yield fields[1], 'frame, ' + roots[fields[0]], int(fields[2], 16), int(fields[3])


def range_text(address, size):
    last = f' to {address + size - 1:04X}h' if size > 1 else ''
    return f'{address:04X}h{last}' if size else ''


def wanted_rows(map_text):
    places = list(places_of(map_text))
    for number, (name, kind, address, size) in enumerate(places):
        sharers = [
            other[0] for place, other in enumerate(places)
            if place != number and size and other[3] and kind.startswith('frame') and other[1].startswith('frame')
            and address < other[2] + other[3] and other[2] < address + size]
        more = f' and {len(sharers) - 12} more' if len(sharers) > 12 else ''
        yield [name, kind, range_text(address, size), str(size), ''.join(' ' + sharer for sharer in sharers[:12]) + more]


def compare(program, picc, path):
    """What is wrong with the page of a text, as texts."""
    name = os.path.basename(path)
    with open(name, 'wb') as file:
        file.write(content(path))
    built, line = run(picc, 'build', name, 'a.hex', 'a.map')
    before = files_here()
    status, printed = run(program, name, 'a.html')
    if (status, printed) != (built, line):
        yield f'status {status}, prints {printed}; the build: {built}, {line}'
    if built != 0:
        if files_here() != before:
            yield 'a file is changed'
        return
    text = content('a.html').decode()
    page = Page(text)
    yield from page.faults
    if 'http' in text:
        yield 'it names an address of the network'
    rows = page.tables[0][1:]
    if [row[:4] + row[5:] for row in rows] != list(wanted_rows(content('a.map').decode())):
        yield f'objects and frames are {rows}'
    if any(sum(map(int, re.findall('[0-9]+(?=,| temporary)', row[4]))) != int(row[3]) for row in rows if row[1].startswith('frame')):
        yield f'frames hold more or less than they have: {rows}'
    if any('never live together' not in span for span in re.findall('<span[^>]*>', text.partition('<tr>')[2].partition('</table>')[0])):
        yield 'two frames share an address, and may be live together'
    words = {int(at, 16): int(word, 16) for at, word in re.findall('^([0-9A-F]{4}) ([0-9A-F]{4}) ', page.listed, re.M)}
    if {at: word for at, word in words.items() if word != ERASED} != words_of(content('a.hex').decode()):
        yield 'the words are not those of the HEX'
    counts = [int(row[3]) for row in page.tables[1][1:]]
    if sum(counts) != len(words) or f'{len(words)} of 8192 words' not in text:
        yield f'{sum(counts)} words are counted, and {len(words)} listed'
    os.remove('a.html')


HOSTILE = b'/* </pre><script>x</script> & "quoted" \x80\x01 */\nunsigned char t;\nvoid main(void){ if (t < 2 && t > 0) PORTB = \'"\'; }\n'


def hostile(program):
    """What is wrong with the page of a text that has markup, under a name that has markup."""
    name = '<b>&"x.c'
    with open(name, 'wb') as file:
        file.write(HOSTILE)
    if run(program, name, 'a.html') != (0, b''):
        yield 'a text with markup has no page'
        return
    page = Page(content('a.html').decode(errors='replace'))
    yield from page.faults
    if '</pre><script>x</script> & "quoted"' not in page.listed or 't < 2 && t > 0' not in page.listed:
        yield 'a text with markup is not shown as it is'
    os.remove('a.html')


USAGE = b'usage: memory_page IN OUT\n'


def refusals(program):
    """What is wrong where no page is written, as texts."""
    with open('led.c', 'wb') as file:
        file.write(b'void main(void){PORTB=5;}\n')
    os.mkdir('folder')
    cases = [
        ([], 2, USAGE), (['led.c'], 2, USAGE), (['led.c', 'a', 'b'], 2, USAGE), (['', 'a'], 2, USAGE), (['led.c', '-a'], 2, USAGE),
        (['led.c', 'led.c'], 2, b'the page would replace led.c\n'), (['led.c', '././led.c'], 2, b'the page would replace led.c\n'),
        (['none.c', 'a.html'], 3, b'cannot read none.c\n'),
        (['led.c', 'folder'], 3, b'cannot write folder\n'),
        (['led.c', 'none/a.html'], 3, b'cannot write none/a.html\n'),
    ]
    before = files_here()
    for words, status, line in cases:
        found = run(program, *words)
        if found != (status, line):
            yield f'{words}: status {found[0]}, prints {found[1]}'
        if files_here() != before:
            yield f'{words}: a file is changed'
    if os.listdir('folder'):
        yield 'a file is made in a folder'


def main():
    program, picc, script, *texts = sys.argv[1:]
    failed = 0
    with tempfile.TemporaryDirectory() as folder:
        os.chdir(folder)
        found = [(os.path.basename(path), fault) for path in texts for fault in compare(program, picc, path)]
        found += [('markup', fault) for fault in hostile(program)] + [('words', fault) for fault in refusals(program)]
        for name, fault in found:
            print(f'{script}: {name}: {fault}')
            failed = 1
        os.chdir('/')
    if not failed:
        print(f'{script}: the pages of {len(texts)} texts are those of their builds')
    return failed


if __name__ == '__main__':
    sys.exit(main())
