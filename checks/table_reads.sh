#!/bin/sh
# Reads of tables in program memory, as the definitions of byte code (`Reading`) and of symbolic code (`Table`) have them, which no pass
# makes yet. checks/lib/table_texts.py writes random programs whose const tables are read by functions, and checks/lib/table_reads.py puts one
# read in place of the body of each of these functions, in what picc_show prints of the program. Run beside one another, byte code with
# reads has to make the events of byte code without them in the same order, end where it ends and be stuck nowhere else; and so has symbolic
# code with reads, without selects and with all, beside that byte code. Each has a place for each moment of the other, where it has cost at
# most no more, and from the start at least no less. Where byte code is stuck, at a read behind a table's end, nothing is compared any more.
# The programs: six from seed 1. `table_reads.sh COUNT [SEED]` runs so many.
# PICC_SHOW names a program in place of picc_show; PROCESSES says how many processes work at the same time.
set -u
. "$(dirname -- "$0")/lib/common.sh" || exit 1
if ! command -v python3 >/dev/null; then
    printf '%s: skipped, since python3 is not installed\n' "$script"
    exit 0
fi
. "$top/checks/lib/show.sh" || exit 1
show=${PICC_SHOW:-$(program_of picc_show)}
[ -x "$show" ] || {
    wrong 'picc_show was not built'
    exit 1
}
PYTHONDONTWRITEBYTECODE=1 python3 "$top/checks/lib/table_reads.py" "$show" "${1:-6}" "${2:-1}" "${PROCESSES:-2}"
