#!/bin/sh
# The depth of the return stack that depth_show finds of each image of examples/ and bench/kernels/ is that of the program by the
# definition (crates/call_graph, HasDepth), or it prints a reason why there is no certificate that the definition of certificates has: the
# table. `picc check` prints its first line, with its status. PICC, PICC_SHOW and DEPTH_SHOW name programs in place of the launcher, of picc_show and of depth_show.
set -u
. "$(dirname -- "$0")/lib/common.sh" || exit 1
if ! command -v python3 >/dev/null; then
    printf '%s: skipped, since python3 is not installed\n' "$script"
    exit 0
fi
. "$top/checks/lib/show.sh" || exit 1
picc_show=${PICC_SHOW:-$(program_of picc_show)}
depth_show=${DEPTH_SHOW:-$(program_of depth_show)}
for program in "$picc_show" "$depth_show"; do
    [ -x "$program" ] || wrong "$program was not built"
done
[ "$failed" = 0 ] || exit 1
(enter_folder && first_build) || exit 1
PYTHONDONTWRITEBYTECODE=1 python3 "$top/checks/lib/depth.py" "$depth_show" "$picc" "$picc_show" "$script" "$top"/examples/*.c "$top"/bench/kernels/*.c
