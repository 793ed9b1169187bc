#!/bin/sh
# The headline's own definitions (crates/headline), run over bounded runs of built images: each clause of `IsFaithful` is evaluated, from
# random states after power-on, with arrivals at random moments in any order, repeated, and beyond the end: prefix, pace, end_state,
# no_underflow, no_overflow, frames, start_up, no_early_access; whether and how far a run is clean; and of the image and the map without a
# run words, mapped, main, halt, apart and clear_of_objects. checks/lib/clauses.py and map_clauses.py have the clauses,
# checks/lib/interpreter.py runs the definitions over what picc_show prints of the program. Images and maps that are made wrong have to be
# refused, each by the clause that it breaks (checks/lib/wrong.py). The programs: examples/, bench/kernels/, two small ones, and ten random
# ones from seed 1. `headline.sh COUNT [SEED]` runs so many random ones, and a long run of each program, for pace.
# PICC_SHOW names a program in place of picc_show; PROCESSES says how many processes work at the same time.
set -u
. "$(dirname -- "$0")/lib/common.sh" || exit 1
if ! command -v python3 >/dev/null; then
    printf '%s: skipped, since python3 is not installed\n' "$script"
    exit 0
fi
. "$top/checks/lib/show.sh" || exit 1
show=${PICC_SHOW:-$(program_of picc_show)}
[ -x "$show" ] || {
    wrong 'picc_show was not built'
    exit 1
}
count=${1:-10}
seed=${2:-1}
# of so many programs one has a long run
long=8
[ $# -eq 0 ] || long=1
PYTHONDONTWRITEBYTECODE=1 python3 "$top/checks/lib/headline.py" "$show" "$count" "$seed" "${PROCESSES:-2}" "$long" "$top"/examples/*.c "$top"/bench/kernels/*.c
