#!/bin/sh
# The cases of checks/cases/refusals.jsonl, and of narrower.jsonl and types.jsonl beside it, through `picc build`: one JSON object a line, with the
# text of a program and the answer that was worked out by hand, a refusal or `ok`. Those of narrower.jsonl are what docs/language.md lists as narrower
# and wider than C90, and what to write instead; those of types.jsonl are short texts on names and types.
# What a case says beside `ok` of lines of the map and of bytes of a frame is compared with the map. Words of a block and depths
# aren't printed, so such a case is skipped once its program was accepted.
set -u
. "$(dirname -- "$0")/lib/common.sh" || exit 1
. "$top/checks/lib/cases.sh" || exit 1

# Builds the text of each case of the file that have_cases found.
build_cases() {
    run_cases <<'PY'
import os
import sys
from cases import judged, ran


def answer(text):
    """The status and the printed text of a build, and whether it left a file beside a.c."""
    for name in ('a.hex', 'a.map'):
        if os.path.exists(name):
            os.remove(name)
    with open('a.c', 'wb') as file:
        file.write(text)
    status, printed = ran('build', 'a.c', 'a.hex', 'a.map')
    return status, printed, sorted(os.listdir('.')) != ['a.c']


def mapped(want):
    """Whether the map is as a case wants it beside `ok`, or None where the map doesn't tell that."""
    with open('a.map', encoding='ascii') as file:
        lines = [line.split() for line in file]
    if want[0] in ('static', 'const', 'frame'):
        return want in lines
    if want[0] == 'bytes':
        return any(line[0] == 'frame' and line[2] == want[1] and line[4] == want[2] for line in lines)
    return None


def verdict(want, status, printed, wrote):
    """'passed', 'skipped' or 'differs'."""
    if want.startswith('ok'):
        if (status, printed, wrote) != (0, b'', True):
            return 'differs'
        holds = mapped(want.split()[1:]) if want != 'ok' else True
        return 'skipped' if holds is None else 'passed' if holds else 'differs'
    return 'passed' if (status, printed, wrote) == (1, want.encode() + b'\n', False) else 'differs'


def judge(number, case):
    status, printed, wrote = answer(case['text'].encode('latin-1'))
    said = verdict(case['want'], status, printed, wrote)
    if said != 'differs':
        return said, None
    return said, f'case {number}: wanted {case["want"]!r}, got status {status}, {printed!r}'


sys.exit(judged(judge, ('passed', 'skipped', 'differs')))
PY
}

(enter_folder && first_build) || exit 1
for file in refusals.jsonl narrower.jsonl types.jsonl; do
    have_cases "$file" || continue
    (enter_folder && build_cases) || failed=1
done
exit $failed
