#!/bin/sh
# HEX files of picc on gpsim's models of the PIC16F877A and the PIC16F84 (the 84A is the same in faster silicon), which nobody of this
# project wrote. examples/led.c: after 1,000 cycles PORTB's latch holds 05h, and the program counter stands in the loop at the halt
# address of the map: at most two selects of the page, and a jump back. Then each of examples/: the bytes that it writes to PORTB and
# PORTC, one behind the other, are those that `picc sim` prints of the same file without input bytes and arrivals, as far as gpsim runs;
# and so of `picc build84` and `picc sim84`. At last the commands of docs/tools.md, which shows what gpsim 0.31.0 prints.
set -u
if ! command -v gpsim >/dev/null; then
    echo 'gpsim: skipped, since gpsim is not installed'
    exit 0
fi
. "$(dirname -- "$0")/lib/common.sh" || exit 1
enter_folder

# the number that the line NAME = 0x.. tells, or nothing
value() {
    sed -n "s/^.*$1 = 0x\([0-9a-fA-F]*\)[[:space:]]*\$/\1/p" printed | tail -n 1
}

led() {
    "$picc" build "$top/examples/led.c" led.hex led.map || return 1
    halt=$(sed -n 's/^halt //p' led.map)
    printf 'break c 1000\nrun\npc\nportb\nquit\n' >commands.stc
    gpsim -i -p p16f877a -c commands.stc led.hex </dev/null >printed 2>&1
    latch=$(value portb)
    pc=$(value pc)
    if [ -n "$latch" ] && [ -n "$pc" ] && [ $((0x$latch)) -eq 5 ] && [ $((0x$pc)) -ge $((0x$halt)) ] &&
        [ $((0x$pc)) -le $((0x$halt + 2)) ]; then
        echo "gpsim: PORTB's latch holds 05h, and the program idles at $halt"
        return 0
    fi
    echo "gpsim: PORTB's latch is '$latch', wanted 5; the program counter is '$pc', wanted $halt or up to two words behind"
    cat printed
    return 1
}

# Name, how many writes there are to be at least, what stands behind the names of the commands (nothing, or 84), and gpsim's processor. An
# instruction takes one cycle or two, so gpsim runs no more instructions than cycles.
writes_on() {
    "$picc" "build$3" "$top/examples/$1.c" "$1.hex" "$1.map" || return 1
    : >nothing
    "$picc" "sim$3" "$1.hex" "$1.map" nothing 1000000 | sed -n 's/^W \(PORT[BC] ..\)$/\1/p' >wanted
    printf 'log on written\nlog w 0x06\nlog w 0x07\nbreak c 1000000\nrun\nquit\n' >commands.stc
    rm -f written
    gpsim -i -p "$4" -c commands.stc "$1.hex" </dev/null >printed 2>&1
    sed -n 's/^ *Wrote: 0x00\([0-9A-F][0-9A-F]\) to port\([bc]\).*/\2 \1/p' written |
        sed 's/^b/PORTB/; s/^c/PORTC/' >found
    count=$(wc -l <found)
    if [ "$count" -ge "$2" ] && head -n "$count" wanted | cmp -s - found; then
        echo "gpsim: $1 writes the same $count bytes on $4"
        return 0
    fi
    echo "gpsim: $1 has $count writes on $4, and these differences"
    head -n "$count" wanted | diff - found | head -n 20
    return 1
}

writes() {
    writes_on "$1" "$2" '' p16f877a
}

writes_second() {
    writes_on "$1" "$2" 84 p16f84
}

led || failed=1
writes pins 1 || failed=1
writes two_copies 1 || failed=1
writes pump 100 || failed=1
writes meter 1 || failed=1
writes lock 1 || failed=1
writes lights 71 || failed=1
writes_second pins 1 || failed=1
writes_second blink 2 || failed=1
writes_second stairs 3 || failed=1
if ! gpsim --version 2>&1 | grep -q '^gpsim-0\.31\.0 ' || ! command -v python3 >/dev/null || ! make --version 2>/dev/null | grep -q '^GNU Make'; then
    echo 'gpsim: docs/tools.md skipped, since gpsim 0.31.0, python3 or GNU make is not installed'
    exit $failed
fi
PYTHONDONTWRITEBYTECODE=1 python3 "$top/checks/lib/sessions.py" "$top" "$picc" gpsim docs/tools.md || failed=1
exit $failed
