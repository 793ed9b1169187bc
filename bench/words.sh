#!/bin/sh
# How many words of program memory the firmware of examples/ and bench/kernels/ takes. It tests nothing.
# It prints a table: the name, the words of picc's image that aren't erased, and those of the text's own functions with the saving of a
# handler's context, without routines of the compiler and the start block. Where SDCC with its port pic14 is there, and gputils, it also
# has both of SDCC's for the same text, and how many times as many picc's are: of the image, of that without what an empty program takes,
# and of own words; at last the geometric means of these. SDCC names the program in place of `sdcc`, PICC_SHOW one in place of picc_show.
set -u
. "$(dirname -- "$0")/../checks/lib/common.sh" || exit 1
. "$top/checks/lib/show.sh" || exit 1
show=${PICC_SHOW:-$(program_of picc_show)}
enter_folder
first_build
sdcc=${SDCC:-sdcc}
kernels=$top/bench/kernels

# HEX: the words of program memory that aren't erased
words() {
    awk '
        function number(from, count,    value) {
            for (value = 0; count > 0; count--) value = 16 * value + index("0123456789ABCDEF", toupper(substr($0, from++, 1))) - 1
            return value
        }
        number(8, 2) == 4 { above = 65536 * number(10, 4) }
        number(8, 2) == 0 {
            first = above + number(4, 4)
            count = number(2, 2)
            for (i = 0; i < count; i++) byte[first + i] = number(10 + 2 * i, 2)
        }
        END {
            for (at = 0; at < 16384; at += 2) if (at in byte && byte[at] + 256 * byte[at + 1] != 16383) found++
            print found + 0
        }
    ' "$1"
}

# C text: the words of its functions, of every copy, and those that save and restore the handler's context
own_words() {
    "$show" code "$1" | awk '
        /^[^ ]/ { part = $1 }
        part == "Copies" && $1 == "Copy" { helper["Copy(" copies++ + 0 ")"] = $3 ~ /^Helper/ }
        part != "Selected" { next }
        $1 == "Block" { name = substr($2, 1, length($2) - 1); counts = name != "Start" && !helper[name]; next }
        name == "Start" && /Movwf SavedW$/ { counts = 1 }
        counts && $1 != "Label" { found++ }
        name == "Start" && /Plain Retfie$/ { counts = 0 }
        END { print found + 0 }
    '
}

# the same of sdcc.map
own_words_of_sdcc() {
    awk '
        function number(digits,    value) {
            for (value = 0; digits != ""; digits = substr(digits, 2)) value = 16 * value + index("0123456789abcdef", substr(digits, 1, 1)) - 1
            return value
        }
        $2 == "code" && ($1 ~ /^S_sdcc__/ || $1 == "c_interrupt") { bytes += number(substr($5, 3)) }
        END { print bytes / 2 }
    ' sdcc.map
}

# C text: builds it as picc.hex
build_with_picc() {
    "$picc" build "$1" picc.hex picc.map
}

# C text: builds it as sdcc.hex and sdcc.map, with the names of registers and the mark of a handler that SDCC knows
build_with_sdcc() {
    {
        cat "$kernels/sdcc.h"
        sed -e '/^#include/d' -e 's/^void interrupt \([a-z_]*(void)\)/void \1 __interrupt(0)/' "$1"
    } >sdcc.c
    rm -f sdcc.hex
    "$sdcc" -mpic14 -p16f877a --no-warn-non-free -Wl-m sdcc.c >said 2>&1 && [ -f sdcc.hex ]
}

# C text, name: its line
compare() {
    build_with_picc "$1" || return
    count=$(words picc.hex)
    own=$(own_words "$1")
    if [ $both = no ]; then
        printf '| %s | %s | %s |\n' "$2" "$count" "$own"
    elif build_with_sdcc "$1"; then
        awk -v name="$2" -v ours="$count" -v theirs="$(words sdcc.hex)" -v our_start="$our_start" -v their_start="$their_start" \
            -v own="$own" -v their_own="$(own_words_of_sdcc)" 'BEGIN {
            printf "| %s | %d | %d | %.2f | %.2f |", name, ours, theirs, ours / theirs, (ours - our_start) / (theirs - their_start)
            printf " %d | %d | %.2f |\n", own, their_own, own / their_own
        }'
    else
        printf '| %s | %s | fails | | | %s | | |\n' "$2" "$count" "$own"
    fi
}

both=no
printf 'void main(void){}\n' >empty.c
build_with_picc empty.c || exit 1
our_start=$(words picc.hex)
own=$(own_words empty.c)
if build_with_sdcc empty.c; then
    both=yes
    their_start=$(words sdcc.hex)
    printf '| Program | picc | SDCC | Ratio | Ratio without the empty program | Own words, picc | Own words, SDCC | Ratio of own words |\n'
    printf '|---|---|---|---|---|---|---|---|\n'
    printf '| an empty one | %s | %s | | | %s | %s | |\n' "$our_start" "$their_start" "$own" "$(own_words_of_sdcc)"
else
    printf '| Program | picc | Own words |\n|---|---|---|\n'
    printf '| an empty one | %s | %s |\n' "$our_start" "$own"
fi
{
    for file in "$top"/examples/*.txt; do
        compare "${file%.txt}.c" "examples/$(basename -- "$file" .txt)"
    done
    for file in "$kernels"/*.c; do
        compare "$file" "kernels/$(basename -- "$file" .c)"
    done
} | tee lines
[ $both = no ] || awk -F '|' -v our_start="$our_start" -v their_start="$their_start" '
    $5 > 0 {
        whole += log($3 / $4)
        rest += log(($3 - our_start) / ($4 - their_start))
        own += log($7 / $8)
        count++
    }
    END { if (count) printf "| geometric mean | | | %.2f | %.2f | | | %.2f |\n", exp(whole / count), exp(rest / count), exp(own / count) }
' lines
