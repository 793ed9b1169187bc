#!/bin/sh
# The definitions of crates/rom_tables, by which reads of const tables become calls, run on random programs with tables: by the definitions of the
# source the made program has the events of the given one, under input bytes and arrivals, ends as it does, and counts at least as many steps
# between two events and at most four times as many (checks/lib/outlines.py). Eight programs from seed 1; `outlines.sh COUNT [SEED]` runs so many.
# PICC_SHOW names a program in place of picc_show; PROCESSES says how many processes work at the same time.
set -u
. "$(dirname -- "$0")/lib/common.sh" || exit 1
if ! command -v python3 >/dev/null; then
    printf '%s: skipped, since python3 is not installed\n' "$script"
    exit 0
fi
. "$top/checks/lib/show.sh" || exit 1
show=${PICC_SHOW:-$(program_of picc_show)}
[ -x "$show" ] || {
    wrong 'picc_show was not built'
    exit 1
}
PYTHONDONTWRITEBYTECODE=1 python3 "$top/checks/lib/outlines.py" "$show" "${1:-8}" "${2:-1}" "${PROCESSES:-2}"
