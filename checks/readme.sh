#!/bin/sh
# Each command that README.md and the pages for users show prints what they show, and ends with the status that they say.
# checks/lib/sessions.py says how a page shows them. README.md has at most 6,144 bytes.
set -u
. "$(dirname -- "$0")/lib/common.sh" || exit 1
bytes=$(wc -c <"$top/README.md") || exit 1
[ "$bytes" -le 6144 ] || wrong "README.md has $bytes bytes, more than 6144"
if ! command -v python3 >/dev/null; then
    printf '%s: commands skipped, since python3 is not installed\n' "$script"
    exit $failed
fi
(enter_folder && first_build) || exit 1
PYTHONDONTWRITEBYTECODE=1 python3 "$top/checks/lib/sessions.py" "$top" "$picc" "$script" \
    README.md docs/guide.md docs/semantics.md examples/README.md || failed=1
exit $failed
