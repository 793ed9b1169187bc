# Cases that stand in a file of checks/cases/ as one JSON object a line. Sourced after common.sh.
# shellcheck shell=sh disable=SC2154

# Whether the cases of this file can be run, as `cases` from then on. A missing file is a failure; without python3 the cases are
# skipped.
have_cases() {
    cases=$top/checks/cases/$1
    if [ ! -r "$cases" ]; then
        wrong "there is no file checks/cases/$1"
        return 1
    fi
    if ! command -v python3 >/dev/null; then
        printf '%s: cases skipped, since python3 is not installed\n' "$script"
        return 1
    fi
}

# Runs the Python text on standard input, which may import `judged` and `ran` from cases.py. Its arguments are the program, the
# file of cases, and the name that begins each printed line.
run_cases() {
    PYTHONPATH=$top/checks/lib PYTHONDONTWRITEBYTECODE=1 python3 - "$picc" "$cases" "$script"
}
