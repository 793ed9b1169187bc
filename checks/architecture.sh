#!/bin/sh
# The tables of crates in docs/architecture.md have exactly one row for each crate of crates.txt, and none for any other name.
# `sh checks/architecture.sh write` adds the rows that are missing, from the heads of the crates, and removes those of crates that there aren't.
set -u
. "$(dirname -- "$0")/lib/common.sh" || exit 1
if ! command -v python3 >/dev/null; then
    printf '%s: skipped, since python3 is not installed\n' "$script"
    exit 0
fi
PYTHONDONTWRITEBYTECODE=1 python3 "$top/checks/lib/crates.py" "$top" "$script" "$@" || exit 1
