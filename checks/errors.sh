#!/bin/sh
# Each line that docs/errors.md shows comes of the program or file that stands there, with the status that stands there
# (checks/lib/sessions.py says how). And the page has each text that the definitions of printed lines have.
set -u
. "$(dirname -- "$0")/lib/common.sh" || exit 1
page=$top/docs/errors.md

# the texts of these definitions, one a line
texts() {
    (cd -- "$top/crates/picc_cli/specs" && cat Lines.antt Refusals.antt Inputs.antt Checked.antt ../../hex_image/specs/Faults.antt) |
        grep -o 'codes "[^"]*"' | sed 's/^codes "//; s/"$//; s/^: //; s/ *$//' | sort -u
}

texts >/dev/null || exit 1
texts | while IFS= read -r text; do
    grep -qF -- "$text" "$page" || printf '%s\n' "$text"
done | {
    status=0
    while IFS= read -r text; do
        wrong "docs/errors.md doesn't have the text: $text"
        status=1
    done
    exit $status
} || failed=1

if ! command -v python3 >/dev/null; then
    printf '%s: commands skipped, since python3 is not installed\n' "$script"
    exit $failed
fi
(enter_folder && first_build) || exit 1
PYTHONDONTWRITEBYTECODE=1 python3 "$top/checks/lib/sessions.py" "$top" "$picc" "$script" docs/errors.md || failed=1
exit $failed
