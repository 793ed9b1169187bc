"""Runs the commands that a page shows, and compares what they print. Arguments: the folder of the repository, the program picc, the
name that begins each printed line, and the pages.

A session stands in an indented or fenced block. A line `$ COMMAND` is a command for the shell; where it ends in <<'WORD', the lines
up to WORD belong to it. The lines after it are what it prints. `(status N)` as the last of them says that it ends with N, and
without such a line it ends with 0. Each section, from one `## ` to the next, has a new folder with the folders examples/ and crates/ and
the program in it, so `./picc` and `picc` are the same there."""
import os
import re
import subprocess
import sys
import tempfile

# A run of the sources without a proof takes two minutes of a processor.
SECONDS = 900


class Command:
    """A command, the line of the page on which it stands, and what is to come of it."""

    def __init__(self, line, text):
        self.line, self.text = line, text
        self.printed, self.status = [], 0


def blocks(lines):
    """The blocks of code: lists of pairs of a line's number and its text without the indentation. Headings `## ` stand between
    them as None."""
    block, fenced = [], False
    for number, line in enumerate(lines, 1):
        if line.startswith('```'):
            fenced = not fenced
        elif fenced:
            block.append((number, line))
            continue
        elif line.startswith('    '):
            block.append((number, line[4:]))
            continue
        elif not line and block:
            block.append((number, ''))
            continue
        if block:
            yield block
            block = []
        if line.startswith('## '):
            yield None
    if block:
        yield block


def without_blank_end(block):
    while block and not block[-1][1]:
        block = block[:-1]
    return block


def commands(block):
    """The commands of a block; none where it doesn't begin with one."""
    found, end = [], None
    for number, line in without_blank_end(block):
        if end is not None:
            found[-1].text += '\n' + line
            if line == end:
                end = None
        elif line.startswith('$ '):
            found.append(Command(number, line[2:]))
            word = re.search(r"<<'(\w+)'$", line)
            end = word.group(1) if word else None
        elif not found:
            return []
        elif re.fullmatch(r'\(status \d+\)', line):
            found[-1].status = int(line[8:-1])
        else:
            found[-1].printed.append(line)
    return found


def sections(lines):
    """The commands of each section."""
    section = []
    for block in blocks(lines):
        if block is None:
            yield section
            section = []
        else:
            section += commands(block)
    yield section


def environment(folder):
    return dict(os.environ, PATH=folder + os.pathsep + os.environ['PATH'], LC_ALL='C')


def prepare(folder, top, picc):
    os.symlink(picc, os.path.join(folder, 'picc'))
    for name in ('examples', 'crates'):
        os.symlink(os.path.join(top, name), os.path.join(folder, name))


def differs(command, folder):
    """What differs, or None."""
    run = subprocess.run(['sh', '-c', command.text], cwd=folder, env=environment(folder), stdin=subprocess.DEVNULL,
                         stdout=subprocess.PIPE, stderr=subprocess.STDOUT, timeout=SECONDS)
    printed = run.stdout.decode('latin-1').splitlines()
    if printed != command.printed:
        return f'the page shows {command.printed}, printed is {printed}'
    if run.returncode != command.status:
        return f'the page says status {command.status}, it is {run.returncode}'
    return None


def check_page(top, picc, name, page):
    """How many commands the page has, and how many of them differ."""
    with open(os.path.join(top, page), encoding='utf-8') as file:
        lines = file.read().splitlines()
    count = wrong = 0
    for section in sections(lines):
        with tempfile.TemporaryDirectory() as folder:
            prepare(folder, top, picc)
            for command in section:
                count += 1
                difference = differs(command, folder)
                if difference is not None:
                    wrong += 1
                    print(f'{name}: {page}:{command.line}: {command.text.splitlines()[0]}: {difference}')
    return count, wrong


def main():
    top, picc, name, *pages = sys.argv[1:]
    failed = False
    for page in pages:
        count, wrong = check_page(top, picc, name, page)
        print(f'{name}: {page}: {count} commands, {wrong} differ')
        failed |= wrong > 0 or count == 0
    return 1 if failed else 0


if __name__ == '__main__':
    sys.exit(main())
