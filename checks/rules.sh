#!/bin/sh
# The rules on names and types, run as definitions (type_rules) on texts, and compared with what the checker says of the same texts: the typed
# tree node by node, or the kind and the line of the first broken rule. checks/lib/trees.py reads the texts, checks/lib/interpreter.py runs
# the definitions, and picc_show prints what the checker says. The texts: those of front_tests that the checker takes or refuses, those of
# examples/ and of checks/cases/, and 200 changed ones from seed 1. `rules.sh COUNT [SEED]` runs so many changed ones, of the texts of all
# crates of examples.
# Before that the definition of a program's tokens is run (`program_tokens`, over those of c_token, c_pre and c_parse) on each text of
# checks/cases/refusals.jsonl: it has to refuse what the case's answer says, on its line, or to give tokens where the answer is another one.
# PICC_SHOW names a program in place of picc_show; PROCESSES says how many processes work at the same time.
set -u
. "$(dirname -- "$0")/lib/common.sh" || exit 1
if ! command -v python3 >/dev/null; then
    printf '%s: skipped, since python3 is not installed\n' "$script"
    exit 0
fi
PYTHONDONTWRITEBYTECODE=1 python3 "$top/checks/lib/tokens.py" "$top/checks/cases/refusals.jsonl" || failed=1
. "$top/checks/lib/show.sh" || exit 1
show=${PICC_SHOW:-$(program_of picc_show)}
[ -x "$show" ] || {
    wrong 'picc_show was not built'
    exit 1
}
count=${1:-200}
seed=${2:-1}
if [ $# -eq 0 ]; then
    set -- "$top"/crates/front_tests/src/rules.rt "$top"/crates/front_tests/src/typed_trees.rt
else
    set -- "$top"/crates/*_tests/src/*.rt
fi
PYTHONDONTWRITEBYTECODE=1 python3 "$top/checks/lib/rules.py" "$show" "$count" "$seed" "${PROCESSES:-2}" "$@" "$top"/examples/*.c "$top"/checks/cases/*.jsonl || failed=1
exit $failed
