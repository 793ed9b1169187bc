#!/bin/sh
# The firmware of examples/: each is built, and with so many steps `picc trace` prints the trace that stands beside it, whose last line
# is of the last step. The traces are those of models of the programs, and not of the compiler. `picc sim` prints the same events of
# the chip under the input bytes alone as `trace` does. And the firmware that crates/run_tests runs on the chip's machine is that of
# examples/.
set -u
. "$(dirname -- "$0")/lib/common.sh" || exit 1

texts=$(cat "$top/crates/run_tests/src/firmware.rt") || exit 1
for name in pump meter lock; do
    text=$(sed 's/\\/\\\\/g; s/"/\\"/g' "$top/examples/$name.c") || exit 1
    case $texts in
        *"\"$text"*) ;;
        *) wrong "$name.c is not the text that the tests run" ;;
    esac
done

enter_folder

# name, what is compared, the file that is wanted, the file that came
same() {
    cmp -s "$3" "$4" || {
        wrong "$1: $2; what is wanted, and what came:"
        diff "$3" "$4"
    }
}

# name, the number of the step that makes the last event
traced() {
    for kind in c txt trace; do
        cp "$top/examples/$1.$kind" . || exit 1
    done
    "$picc" trace "$1.c" "$1.txt" "$2" >printed || wrong "$1: trace fails"
    same "$1" "the trace of $2 steps" "$1.trace" printed
    sed '$d' "$1.trace" >shorter
    "$picc" trace "$1.c" "$1.txt" $(($2 - 1)) >printed || wrong "$1: trace fails"
    same "$1" "the trace of $(($2 - 1)) steps" shorter printed
}

# name: 2,000 instructions of the chip under the input bytes alone make the first events of the source
simulated() {
    "$picc" build "$1.c" "$1.hex" "$1.map" || wrong "$1: build fails"
    grep '^input' "$1.txt" >inputs
    "$picc" sim "$1.hex" "$1.map" inputs 2000 >chip || wrong "$1: sim fails"
    lines=$(wc -l <chip)
    [ "$lines" -gt 0 ] || wrong "$1: sim prints nothing"
    "$picc" trace "$1.c" inputs 20000 | head -n "$lines" >source
    same "$1" 'the events of the chip' source chip
}

traced blink 90060
traced keypad 1463
traced serial 436
traced stairs 59
for name in blink keypad serial stairs; do
    simulated $name
done
exit $failed
