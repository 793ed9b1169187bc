#!/bin/sh
# Prints where the minutes of the gate go: for each crate the processor minutes of its proof, of its tests and of its wrong bodies, and how long the whole took.
# With no word it runs `rt ci` over a clone of what is committed, as .ci/run does. With the number of a process it watches the gate that this process runs.
# What a kit keeps of earlier runs is proved no second time and costs nothing here: for the price from nothing see that it keeps nothing of these sources.
set -u
top=$(CDPATH='' cd -- "$(dirname -- "$0")/.." && pwd -P) || exit 1
watched=${1:-}
if [ -z "$watched" ]; then
    room=$(mktemp -d "${TMPDIR:-/tmp}/gate.XXXXXX") || exit 1
    trap 'rm -rf "$room"' EXIT
    git clone -q "$top" "$room/repository" || exit 1
    cd -- "$room/repository" || exit 1
    RT_JOBS=${RT_JOBS:-$(sh checks/lib/lanes.sh)}
    export RT_JOBS
    rt ci >"$room/log" 2>&1 </dev/null &
    watched=$!
fi

python3 - "$watched" <<'PY'
import os
import sys
import time
from collections import defaultdict

TICKS = os.sysconf('SC_CLK_TCK')
KINDS = ('proof', 'tests', 'wrong bodies')


def read(pid, name):
    with open(f'/proc/{pid}/{name}', 'rb') as file:
        return file.read().decode(errors='replace')


def numbers(pid):
    """The number of the parent, and the seconds of a processor so far."""
    part = read(pid, 'stat').rsplit(')', 1)[1].split()
    return int(part[1]), sum(map(int, part[11:15])) / TICKS


def kind_of(pid, words):
    if '/rt-edit-' in os.readlink(f'/proc/{pid}/cwd'):
        return 'wrong bodies'
    return 'tests' if '--test' in words else 'proof'


def sample(root, spent):
    """Notes what each check below the process root has taken so far."""
    parents, seconds = {}, {}
    for name in filter(str.isdigit, os.listdir('/proc')):
        try:
            parents[int(name)], seconds[int(name)] = numbers(name)
        except (OSError, IndexError):
            continue
    for pid, taken in seconds.items():
        above = pid
        while above in parents and above != root:
            above = parents[above]
        try:
            words = read(pid, 'cmdline').split('\0') if above == root else []
            if '--crate-name' in words:
                spent[pid, words[words.index('--crate-name') + 1], kind_of(pid, words)] = taken
        except OSError:
            continue


def is_running(pid):
    try:
        return read(pid, 'stat').rsplit(')', 1)[1].split()[0] != 'Z'
    except OSError:
        return False


def table(spent):
    by_crate = defaultdict(lambda: dict.fromkeys(KINDS, 0.0))
    for (_, crate, kind), seconds in spent.items():
        by_crate[crate][kind] += seconds / 60
    rows = sorted(by_crate.items(), key=lambda row: -sum(row[1].values()))
    total = {kind: sum(row[kind] for _, row in rows) for kind in KINDS}
    print(f'{"crate":16}' + ''.join(f'{kind:>14}' for kind in KINDS))
    for crate, row in [*rows, ('all', total)]:
        print(f'{crate:16}' + ''.join(f'{row[kind]:14.1f}' for kind in KINDS))
    print(f'processor minutes: {sum(total.values()):.0f}')


def main():
    root, spent, begun = int(sys.argv[1]), {}, time.time()
    while is_running(root):
        sample(root, spent)
        time.sleep(1)
    table(spent)
    print(f'minutes by the clock, as far as they were watched: {(time.time() - begun) / 60:.0f}')


main()
PY
status=$?
[ -n "${1:-}" ] || tail -n 3 "$room/log"
exit $status
