#!/bin/sh
# `picc trace` on the firmware of examples/: with M steps it prints the trace that stands beside it, whose last line is of
# the last step, and with one step fewer all but that line. Numbers of steps and traces are those of a model, which
# nobody of the compiler's code has a part in. Then the cases of checks/cases/traces.jsonl: one JSON object a line, with a text, a
# script, M, and the printed lines and the status that were worked out by hand.
set -u
. "$(dirname -- "$0")/lib/common.sh" || exit 1
. "$top/checks/lib/cases.sh" || exit 1
enter_folder

# name, number of steps, what it is to print
expect() {
    "$picc" trace "$1.c" "$1.txt" "$2" >printed
    status=$?
    if [ "$status" != 0 ] || ! cmp -s printed "$3"; then
        wrong "$1, $2 steps: status $status, and these differences"
        diff printed "$3"
    fi
}

# name, the number of the step that makes the last event
example() {
    cp "$top/examples/$1.c" "$top/examples/$1.txt" "$top/examples/$1.trace" . || exit 1
    sed '$d' "$1.trace" >shorter
    expect "$1" "$2" "$1.trace"
    expect "$1" $(($2 - 1)) shorter
}

example pump 576
example meter 276
example lock 81816
expect lock 1000000 lock.trace
cp "$top/examples/lights.c" "$top/examples/lights.txt" "$top/examples/lights.trace" . || exit 1
expect lights 1000000 lights.trace

have_cases traces.jsonl || exit $failed
mkdir cases && cd cases || exit 1
run_cases <<'PY' || failed=1
import os
import sys
from cases import judged, ran


def traced(case):
    """The status and the printed text of a trace, and whether it left a file beside its own two."""
    for name, content in (('a.c', case['text']), ('a.s', case['script'])):
        with open(name, 'wb') as file:
            file.write(content.encode('latin-1'))
    status, printed = ran('trace', 'a.c', 'a.s', str(case['m']))
    return status, printed, sorted(os.listdir('.')) != ['a.c', 'a.s']


def judge(number, case):
    lines = ''.join(text + '\n' for text in case['lines']).encode('latin-1')
    got = traced(case)
    if got == (case['status'], lines, False):
        return 'passed', None
    return 'differ', f'case {number}: wanted {case["status"]}, {lines!r}, got {got[0]}, {got[1]!r}'


sys.exit(judged(judge, ('passed', 'differ')))
PY
exit $failed
