#!/bin/sh
# What `picc check` prints of random images is what slow searches for certificates find that were written from the definition of a
# certificate, and share no code with the compiler's (checks/lib/certificates.py). Of tiny images all certificates are tried.
set -u
. "$(dirname -- "$0")/lib/common.sh" || exit 1
if ! command -v python3 >/dev/null; then
    printf '%s: skipped, since python3 is not installed\n' "$script"
    exit 0
fi
(enter_folder && first_build) || exit 1
PYTHONDONTWRITEBYTECODE=1 python3 "$top/checks/lib/certified.py" "$picc" "$script"
