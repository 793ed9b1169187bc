#!/bin/sh
# The second chip on random images: what `picc sim84` prints, what the definitions of crates/chip_84a say of each step, and what a model does that
# was written from the data sheet alone (checks/lib/small_chip.py). `second_chip.sh COUNT [SEED]` takes so many images in place of 120 from seed 1.
# And both chips beside each other: of programs that both take, three of examples/ and random ones, `sim84` of what `build84` makes prints what `sim`
# prints of what `build` makes, under the same flags at the same instructions. PICC names a program in place of the launcher, `-` for none.
set -u
. "$(dirname -- "$0")/lib/common.sh" || exit 1
if ! command -v python3 >/dev/null; then
    printf '%s: skipped, since python3 is not installed\n' "$script"
    exit 0
fi
[ "$picc" = - ] || (enter_folder && first_build) || exit 1
PYTHONDONTWRITEBYTECODE=1 python3 "$top/checks/lib/second_chip.py" "$picc" "$script" "$@"
