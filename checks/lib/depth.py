"""Compares the depth of the return stack that depth_show finds of built images with that of their programs by the definition, and prints the
table. Arguments: depth_show, picc, picc_show, the name that begins each printed line, and files of programs.

The depth of a program is the longest chain of calls from main, and with a handler one more and the longest chain from that (HasDepth of
crates/call_graph). An image may have no certificate, for one of REASONS: these the definition of a certificate doesn't allow.
`picc check` of the image prints the first line that depth_show prints, with the same status."""
import os
import subprocess
import sys
import tempfile

from interpreter import definition
from code_text import Shown
from map_clauses import COPIES, ROOTS, Calls

REASONS = ('writes through INDF', 'writes INTCON, and there is no handler', 'writes PCL')


def output(*words):
    """The status and the printed text of a program."""
    ran = subprocess.run(words, stdout=subprocess.PIPE, timeout=120)
    return ran.returncode, ran.stdout.decode('latin-1')


def depth_of(program):
    """The depth of a program by the definition."""
    calls, depth = Calls(program), 0
    for root in ROOTS:
        entered = definition(COPIES, 'root_of')(program, root)
        if entered[0] == 'Some':
            longest = max(calls.level(entered[1], number) for number in calls.from_(entered[1]))
            depth += longest + (root != ROOTS[0])
    return depth


def row_of(show, picc, picc_show, path, folder):
    """What is told of a program, and whether it is right; None where it isn't built."""
    image, listing = os.path.join(folder, 'a.hex'), os.path.join(folder, 'a.map')
    if output(picc, 'build', path, image, listing)[0] == 1:
        return None
    depth = depth_of(Shown(output(picc_show, 'code', path)[1]).program)
    status, text = output(show, image)
    lines = text.splitlines()
    if output(picc, 'check', image) != (status, lines[0] + '\n'):
        return f'{lines[0]}, and picc check tells another thing', False
    if status == 0:
        return f'{lines[0]}, by the definition {depth}', lines[0] == f'depth {depth}'
    reason = lines[1] if len(lines) > 1 else text
    return f'no certificate: {reason}, by the definition {depth}', status == 7 and reason.partition(': ')[2] in REASONS


def main():
    show, picc, picc_show, name, *paths = sys.argv[1:]
    certified, wrong, built = 0, 0, 0
    with tempfile.TemporaryDirectory() as folder:
        for path in paths:
            row = row_of(show, picc, picc_show, path, folder)
            if row is not None:
                told, is_right = row
                built, certified, wrong = built + 1, certified + told.startswith('depth'), wrong + (not is_right)
                print(f'{name}: {os.path.basename(path)}: {told}' + ('' if is_right else ', which is wrong'))
    print(f'{name}: {built} images, {certified} with a certificate, {wrong} wrong')
    return 1 if wrong or not certified else 0


if __name__ == '__main__':
    sys.exit(main())
