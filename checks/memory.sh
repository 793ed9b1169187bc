#!/bin/sh
# Each command with each of its requests for memory refused in turn, by a library that is loaded before the program's own malloc and
# realloc. The status is then 9, and what was printed is a front of what the command prints; or, where the request could be done
# without, all is as ever. No file holds anything but a front of what the command writes. It wants a C compiler, cc.
set -u
. "$(dirname -- "$0")/lib/common.sh" || exit 1
enter_folder
first_build
program=${PICC:-$top/target/picc/picc}

cat >refusing.c <<'C'
#define _GNU_SOURCE
#include <dlfcn.h>
#include <stdlib.h>
#include <unistd.h>

/* The number of the request that is refused, counted from 1; with none the count is told at the end. */
static long refused, seen;

__attribute__((constructor)) static void begin(void)
{
    const char *number = getenv("REFUSED");
    refused = number ? atol(number) : 0;
}

__attribute__((destructor)) static void end(void)
{
    long rest = seen;
    if (refused)
        return;
    for (; rest > 0; rest--)
        if (write(2, ".", 1) != 1)
            break;
}

void *malloc(size_t size)
{
    static void *(*next)(size_t);
    if (!next)
        next = (void *(*)(size_t))dlsym(RTLD_NEXT, "malloc");
    return ++seen == refused ? 0 : next(size);
}

void *realloc(void *old, size_t size)
{
    static void *(*next)(void *, size_t);
    if (!next)
        next = (void *(*)(void *, size_t))dlsym(RTLD_NEXT, "realloc");
    return ++seen == refused ? 0 : next(old, size);
}
C
if ! cc -shared -fPIC -o refusing.so refusing.c -ldl 2>/dev/null; then
    printf '%s: skipped, since there is no C compiler\n' "$script"
    exit 0
fi

# with a request of this number refused: the words of a command
refusing() {
    number=$1
    shift
    REFUSED=$number LD_PRELOAD=$PWD/refusing.so "$program" "$@" >got
}

# whether a file is there and holds a front of another, or isn't there
is_front() {
    [ ! -e "$1" ] || head -c "$(wc -c <"$1")" "$2" | cmp -s - "$1"
}

# whether a file holds just what another does, or neither is there
is_whole() {
    [ ! -e "$1" ] && [ ! -e "$2" ] || cmp -s "$1" "$2"
}

# the outputs of a build
drop_outputs() {
    rm -f out.hex out.map
}

# the words of a command, each of whose requests is refused
try_each() {
    drop_outputs
    rm -f whole.out.hex whole.out.map
    LD_PRELOAD=$PWD/refusing.so "$program" "$@" >whole 2>dots || wrong "$*: status $?"
    for output in out.hex out.map; do
        [ ! -e $output ] || cp $output whole.$output
    done
    requests=$(wc -c <dots)
    [ "$requests" -gt 0 ] || wrong "$*: no request is seen"
    number=1
    while [ "$number" -le "$requests" ]; do
        drop_outputs
        refusing "$number" "$@"
        status=$?
        case $status in
            9) is_front got whole && is_front out.hex whole.out.hex && is_front out.map whole.out.map ;;
            0) cmp -s got whole && is_whole out.hex whole.out.hex && is_whole out.map whole.out.map ;;
            *) false ;;
        esac || wrong "$*: status $status with request $number of $((requests)) refused"
        number=$((number + 1))
    done
    printf '%s: %s: %s requests\n' "$script" "$1" "$((requests))"
}

cp "$top/examples/two_copies.c" two.c
printf 'void main(void){PORTB=5;}' >port.c
printf 'input 5A\nat 100 INTF\n' >flags
"$program" build two.c two.hex two.map || wrong 'no build'
"$program" build84 port.c port.hex port.map || wrong 'no build for the second chip'
refusing 1 gen 2
if [ $? = 0 ]; then
    printf '%s: skipped, since no library can be loaded before the program\n' "$script"
    exit 0
fi
try_each build two.c out.hex out.map
try_each build port.c out.hex out.map
try_each trace two.c flags 1000
try_each sim two.hex two.map flags 2000
try_each agree two.c flags 2000
try_each gen 2
try_each check two.hex
try_each build84 port.c out.hex out.map
try_each sim84 port.hex port.map flags 2000
exit $failed
