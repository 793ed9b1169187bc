#!/bin/sh
# The table of docs/trust.md has exactly the files of definitions that the headline stands on, and its numbers of lines are theirs.
# `sh checks/trust.sh write` puts the right numbers into the page.
set -u
. "$(dirname -- "$0")/lib/common.sh" || exit 1
if ! command -v python3 >/dev/null; then
    printf '%s: skipped, since python3 is not installed\n' "$script"
    exit 0
fi
PYTHONDONTWRITEBYTECODE=1 python3 "$top/checks/lib/trust.py" "$top" "$script" "$@" || exit 1
