#!/bin/sh
# The definitions of all languages, run on the same programs, scripts and arrivals: what the specs of src_rules, core_code, sym_code
# and pic_chip say that a program does. checks/lib/interpreter.py runs them over what picc_show prints of the program. They have to
# make the same events in the same order, as far as the source is defined, under schedules by the length of the trace, and under the
# schedule that is read off a run of the chip with arrivals at any instruction. Between any two events each language has to cost no more
# than the one above it allows; a run of symbolic code has a place for each moment of the run of byte code, also where no event is
# near; each block has room where it stands, and no more words than are stated for it; objects end with what was
# written; and `picc trace` ends at the undefined step that the definitions meet. The programs: three small ones of examples/, and
# eight random ones from seed 1. `definitions.sh COUNT [SEED]` runs so many random ones, and the texts of examples/, of all crates of
# examples and of checks/cases/ too.
# PICC names a program in place of the launcher, `-` for none; PICC_SHOW one in place of picc_show; PROCESSES says how many processes work at the same time.
set -u
. "$(dirname -- "$0")/lib/common.sh" || exit 1
if ! command -v python3 >/dev/null; then
    printf '%s: skipped, since python3 is not installed\n' "$script"
    exit 0
fi
. "$top/checks/lib/show.sh" || exit 1
show=${PICC_SHOW:-$(program_of picc_show)}
[ -x "$show" ] || {
    wrong 'picc_show was not built'
    exit 1
}
count=${1:-8}
seed=${2:-1}
if [ $# -eq 0 ]; then
    set -- "$top"/examples/led.c "$top"/examples/pins.c "$top"/examples/two_copies.c
else
    set -- "$top"/examples/*.c "$top"/crates/*_tests/src/*.rt "$top"/checks/cases/*.jsonl
fi
PYTHONDONTWRITEBYTECODE=1 python3 "$top/checks/lib/definitions.py" "$show" "$picc" "$count" "$seed" "${PROCESSES:-2}" "$@"
