# `program_of NAME` prints the path of a program of the repository, for scripts that source this file behind common.sh: of that which stands
# beside its sources, as the gate proved and built it. Where a source is newer it is built here first.
# shellcheck shell=sh disable=SC2154

# Whether a program is there, and no source is newer.
is_shown() {
    [ -x "$1" ] && [ -z "$(cd -- "$top" && find crates.txt crates -name out -prune -o -type f \
        \( -path crates.txt -o -path '*/src/*' -o -path '*/specs/*' -o -path '*/proofs/*' \) -newer "$1" -print | head -n 1)" ]
}

program_of() {
    made=$top/crates/$1/out/$1
    if ! is_shown "$made"; then
        rm -f "$made"
        (cd -- "$top/crates/$1" && rt run </dev/null >/dev/null 2>&1)
    fi
    printf '%s\n' "$made"
}
