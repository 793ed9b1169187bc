# What the scripts of checks/ and bench/ share. A script sources this file first; `top` is then the top of the repository, `script`
# the script's own name, which begins each line of a check, `failed` its exit status so far, and `picc` the program: PICC, a whole
# path, in place of the launcher where it is set.
# shellcheck shell=sh disable=SC2034
top=$(CDPATH='' cd -- "$(dirname -- "$0")/.." && pwd -P) || exit 1
script=$(basename -- "$0" .sh)
failed=0
picc=${PICC:-$top/picc}

# Tells what is wrong, in words.
wrong() {
    printf '%s: %s\n' "$script" "$1"
    failed=1
}

# Goes into a new folder, which is removed when the script ends.
enter_folder() {
    folder=$(mktemp -d) || exit 1
    trap 'rm -rf "$folder"' EXIT
    cd -- "$folder" || exit 1
}

# One build of an empty program, at which the launcher builds the compiler where it has to. It leaves no file.
first_build() {
    printf '%s\n' 'void main(void){}' >a.c
    "$picc" build a.c a.hex a.map || exit 1
    rm -f a.c a.hex a.map
}

# Prints a text, so many times.
repeated() {
    awk -v text="$1" -v count="$2" 'BEGIN { for (i = 0; i < count; i++) printf "%s", text }'
}

# Runs picc with these words under GNU time, and prints the seconds and the most memory; before them the status, if it isn't 0.
# What picc prints goes to `printed`.
measured() {
    { command time -f '%e s, %M KB' "$picc" "$@" >printed; } 2>&1
}
