#!/bin/sh
# The commands on the firmware of examples/, through ./picc and the real file system. Traces stand beside the examples; they
# were worked out apart from the compiler. Of each example: `build` prints nothing and writes two files. `trace` prints the kept
# trace. `sim` of the two files, under the input bytes of its script alone, prints the trace of the source under these bytes, as far
# as it comes: the kept one where the program ends. `agree` prints the number of lines that `sim` prints. `gen 2` prints the kept text
# of crates/picc. (`check` on them is in depth.sh.)
set -u
. "$(dirname -- "$0")/lib/common.sh" || exit 1
enter_folder

# the words of a command; its text goes to `printed`. Its status is to be 0.
run() {
    "$picc" "$@" >printed
    status=$?
    [ "$status" = 0 ] || wrong "status $status of $*"
}

# name, the number of instructions
example() {
    cp "$top/examples/$1.c" "$top/examples/$1.txt" . || exit 1
    run build "$1.c" "$1.hex" "$1.map"
    [ ! -s printed ] || wrong "build of $1 prints"
    [ -s "$1.hex" ] && [ -s "$1.map" ] || wrong "build of $1 writes no files"
    run trace "$1.c" "$1.txt" 1000000
    head -n "$(wc -l <"$top/examples/$1.trace")" printed | cmp -s - "$top/examples/$1.trace" || wrong "the trace of $1"

    grep '^input' "$1.txt" >inputs
    run trace "$1.c" inputs 1000000
    mv printed source
    run sim "$1.hex" "$1.map" inputs "$2"
    mv printed chip
    lines=$(wc -l <chip)
    [ "$lines" -gt 0 ] || wrong "sim of $1 prints nothing"
    head -n "$lines" source | cmp -s - chip || wrong "sim of $1 isn't the front of its trace"
    run agree "$1.c" inputs "$2"
    [ "$(cat printed)" = "agree $((lines))" ] || wrong "agree on $1: $(cat printed), and sim has $((lines)) lines"
}

# The firmware under interrupts: a flag now and then.
interrupted() {
    grep '^input' "$1.txt" >flags
    for number in 1 2 3 4 5 6 7 8 9 10; do
        echo "at ${number}507 $2" >>flags
    done
    run agree "$1.c" flags 20000
    case $(cat printed) in
        'agree '*) ;;
        *) wrong "agree on $1 under interrupts: $(cat printed)" ;;
    esac
}

example pump 100000
example meter 100000
example lock 100000
example lights 100000
example stairs 2000
interrupted pump TMR0IF
interrupted meter INTF

# a program that ends: all of it
grep '^input' "$top/examples/lock.txt" >inputs
run sim lock.hex lock.map inputs 1000000
cmp -s printed "$top/examples/lock.trace" || wrong 'sim of lock to its end'
run sim lights.hex lights.map inputs 1000000
cmp -s printed "$top/examples/lights.trace" || wrong 'sim of lights to its end'

run gen 2
cmp -s printed "$top/crates/picc/stdout" || wrong 'gen 2'
exit $failed
