#!/bin/sh
# The cases of checks/cases/simulations.jsonl through `picc sim` and `picc check`: one JSON object a line, with the files by their names, the words of
# the command, and the status and the printed text that were worked out by hand.
set -u
. "$(dirname -- "$0")/lib/common.sh" || exit 1
. "$top/checks/lib/cases.sh" || exit 1
have_cases simulations.jsonl || exit $failed
enter_folder

run_cases <<'PY'
import os
import sys
from cases import judged, ran


def simulated(case):
    """The status and the printed text of a command, and whether its files are as they were, with none beside them."""
    files = {name: content.encode('latin-1') for name, content in case['files'].items()}
    for name in os.listdir('.'):
        os.remove(name)
    for name, content in files.items():
        with open(name, 'wb') as file:
            file.write(content)
    status, printed = ran(*case['words'])
    left = {}
    for name in os.listdir('.'):
        with open(name, 'rb') as file:
            left[name] = file.read()
    return status, printed, left == files


def judge(number, case):
    wanted = case['status'], case['stdout'].encode('latin-1'), True
    got = simulated(case)
    if got == wanted:
        return 'passed', None
    return 'differ', f'{case["why"]}: wanted {wanted}, got {got}'


sys.exit(judged(judge, ('passed', 'differ')))
PY
