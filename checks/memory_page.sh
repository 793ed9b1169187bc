#!/bin/sh
# The page that memory_page writes of each program of examples/ is HTML that needs no network and no scripts. Objects, frames and what
# shares an address are as in the map of `picc build`, and the words with their addresses are those of its HEX. A refused text prints the
# line of `picc build`; this, wrong words, and files that can't be read or written leave all files as they were.
# PICC and MEMORY_PAGE name programs in place of the launcher and of memory_page.
set -u
. "$(dirname -- "$0")/lib/common.sh" || exit 1
if ! command -v python3 >/dev/null; then
    printf '%s: skipped, since python3 is not installed\n' "$script"
    exit 0
fi
. "$top/checks/lib/show.sh" || exit 1
program=${MEMORY_PAGE:-$(program_of memory_page)}
if [ ! -x "$program" ]; then
    wrong "$program was not built"
    exit 1
fi
(enter_folder && first_build) || exit 1
PYTHONDONTWRITEBYTECODE=1 python3 "$top/checks/lib/memory_page.py" "$program" "$picc" "$script" "$top"/examples/*.c
