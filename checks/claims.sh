#!/bin/sh
# The lists of docs/claims.md are those of the contracts, and each clause, law and field that its table of promises names is there.
# `sh checks/claims.sh write` writes the lists anew.
set -u
. "$(dirname -- "$0")/lib/common.sh" || exit 1
if ! command -v python3 >/dev/null; then
    printf '%s: skipped, since python3 is not installed\n' "$script"
    exit 0
fi
PYTHONDONTWRITEBYTECODE=1 python3 "$top/checks/lib/claims.py" "$@" || exit 1
