#!/bin/sh
# examples/Makefile, in a copy of the folder: it builds all programs but deep.c, of which two are run on the model of the chip; a refused
# text stops it with the compiler's own line, and leaves no file; a build that can't be written leaves none either. The record of the
# configuration word is that of words worked out by hand, and `sim` reads the file. What a programmer gets is seen by programs of this
# check in place of the programmers.
set -u
if ! make --version 2>/dev/null | grep -q '^GNU Make'; then
    echo 'makefile: skipped, since GNU make is not installed'
    exit 0
fi
. "$(dirname -- "$0")/lib/common.sh" || exit 1
enter_folder
first_build
cp -R "$top/examples" mine || exit 1
unset MAKEFLAGS MAKELEVEL
PICC=$picc
export PICC
(cd mine && make clean) >cleaned || wrong 'clean fails'
ls mine >before

# The status of make with these words in the copy. What it prints is in `printed`, and what it tells of itself in `told`.
run() {
    (cd mine && make "$@") >printed 2>told
    printf '%s' "$?"
}

# words of make, then lines that it is to print
prints() {
    words=$1
    shift
    # shellcheck disable=SC2086
    status=$(run $words)
    printf '%s\n' "$@" >wanted
    [ "$status" = 0 ] || wrong "make $words: status $status: $(cat told)"
    cmp -s printed wanted || wrong "make $words: printed $(cat printed)"
}

# words of make, then a line that it is to tell or print before it stops
stops() {
    words=$1
    shift
    # shellcheck disable=SC2086
    status=$(run $words)
    [ "$status" != 0 ] || wrong "make $words: status 0"
    cat told >>printed
    grep -qxF "$1" printed || wrong "make $words: printed $(cat printed)"
}

# the files that there are now and weren't before
new_files() {
    ls mine | comm -13 before -
}

stops deep.hex 'deep.c: error 8: depth 9'
[ -z "$(new_files)" ] || wrong "a refused text leaves $(new_files)"
stops 'led.hex PICC=../no_compiler' 'make: there is no compiler ../no_compiler: say where it is, as in make PICC=/path/to/picc'
(cd mine && ulimit -f 0 && make led.hex) 2>&1 | cat >/dev/null
[ -z "$(new_files)" ] || wrong "a build that is not written leaves $(new_files)"

# each but deep.c, with a map; a second call builds nothing
[ "$(run)" = 0 ] || wrong "make fails: $(cat told)"
(cd mine && for text in *.c; do [ "$text" = deep.c ] || printf '%s\n' "${text%.c}.hex" "${text%.c}.map"; done) | LC_ALL=C sort >wanted
new_files | LC_ALL=C sort | cmp -s - wanted || wrong "make leaves $(new_files)"
prints all "make: Nothing to be done for 'all'."

prints led.sim 'W PORTB 05' 'End'
prints 'pins.sim N=100' 'W TRISB 00' 'W PORTB 05' 'End'
prints led.agree 'agree 2'
# two steps of a script in the folder: its byte is read and written
printf 'void main(void){PORTC=PORTB;}\n' >mine/echo.c
printf 'input 5A\n' >mine/byte
prints 'echo.sim SCRIPT=byte' 'R PORTB 5A' 'W PORTC 5A' 'End'
prints 'echo.agree SCRIPT=byte' 'agree 3'
prints 'echo.trace SCRIPT=byte' 'R PORTB 5A' 'W PORTC 5A' 'End'
# the trace that stands in the folder is printed, and stays
[ "$(run pump.trace)" = 0 ] || wrong "make pump.trace fails: $(cat told)"
cmp -s printed "$top/examples/pump.trace" || wrong 'make pump.trace prints another trace'
cmp -s mine/pump.trace "$top/examples/pump.trace" || wrong 'make pump.trace changes the file'

# 02 + 40 + 0E + 00 is 50; 50 + 72 + 3F is 101, and FF more is 200. 50 + 71 + 3F is 100. 50 + 2A + 0F is 89, and 77 more is 100.
record() {
    [ "$(run led.config.hex CONFIG="$1")" = 0 ] || wrong "the word $1: $(cat told)"
    printf '%s\n' "$2" ':00000001FF' >wanted
    tail -n 2 mine/led.config.hex | cmp -s - wanted || wrong "the word $1 has the record $(tail -n 2 mine/led.config.hex | head -n 1)"
    sed '$d' mine/led.hex >front
    sed '$d' mine/led.config.hex | sed '$d' | cmp -s - front || wrong "the word $1 changes the other records"
    : >none
    "$picc" sim mine/led.config.hex mine/led.map none 1000 >printed || wrong "sim does not read the file with the word $1"
    printf '%s\n' 'W PORTB 05' 'End' | cmp -s - printed || wrong "sim prints $(cat printed) with the word $1"
}
record 3F72 ':02400E00723FFF'
record 3F71 ':02400E00713F00'
record 0f2a ':02400E002A0F77'
rm mine/led.config.hex
for word in 4000 3F7 3F722 3G72 ''; do
    stops "led.config.hex CONFIG=$word" "make: the word CONFIG=$word is not one of 0000 to 3FFF"
done
[ ! -e mine/led.config.hex ] || wrong 'a wrong word leaves a file'

# programmers that print what they are given
mkdir bin || exit 1
printf '#!/bin/sh\nprintf "<%%s>" "${0##*/}" "$@"\necho\nexit ${ENDS:-0}\n' >bin/pk2cmd
chmod +x bin/pk2cmd && cp bin/pk2cmd bin/ipecmd.sh || exit 1
stops led.program 'make: say which programmer: PROGRAMMER=pk2cmd or PROGRAMMER=ipecmd'
stops 'led.program PROGRAMMER=pk2cmd PK2CMD=no_pk2cmd' \
    'make: there is no no_pk2cmd: install it, or say where it is, as in make PK2CMD=/path/to/no_pk2cmd'
stops 'led.program PROGRAMMER=ipecmd IPECMD=no_ipecmd' \
    'make: there is no no_ipecmd: install it, or say where it is, as in make IPECMD=/path/to/no_ipecmd'
PATH=$PWD/bin:$PATH
prints 'led.program PROGRAMMER=pk2cmd' 'pk2cmd -PPIC16F877A -Fled.config.hex -M' '<pk2cmd><-PPIC16F877A><-Fled.config.hex><-M>'
prints 'led.program PROGRAMMER=ipecmd TOOL=PK3 FLAGS=-Y' 'ipecmd.sh -TPPK3 -P16F877A -M -Fled.config.hex -Y' \
    '<ipecmd.sh><-TPPK3><-P16F877A><-M><-Fled.config.hex><-Y>'
stops 'led.program PROGRAMMER=pk2cmd ENDS=5' '<pk2cmd><-PPIC16F877A><-Fled.config.hex><-M>'
tail -n 1 mine/led.config.hex | grep -q '^:00000001FF$' || wrong 'what the programmer gets has no end'

rm mine/byte
[ "$(run clean)" = 0 ] || wrong 'clean fails'
[ "$(new_files)" = echo.c ] || wrong "clean leaves $(new_files)"
[ $failed = 0 ] && printf '%s: the examples are built, run and handed on\n' "$script"
exit $failed
