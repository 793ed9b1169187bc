#!/bin/sh
# The launcher builds examples/led.c in the caller's folder: what the HEX does is what the text says, and the map has the frame that is
# due. It hands on the exit status.
set -u
. "$(dirname -- "$0")/lib/common.sh" || exit 1
enter_folder

# one write, and the end of main
cat >wanted.events <<'EVENTS'
W PORTB 05
End
EVENTS
# main's frame has the temporary bytes of an assignment. Where the code stands isn't fixed.
cat >wanted.map <<'MAP'
picc map 1
frame main main 0020 3
end
MAP
: >wanted.none
printf '%s\n' 'usage: picc build IN OUT MAP | trace IN SCRIPT M | sim HEX MAP SCRIPT N | agree IN SCRIPT N | gen K | check HEX | build84 IN OUT MAP | sim84 HEX MAP SCRIPT N' >wanted.usage
printf '%s\n' 'no program.c: error 7: roots none' >wanted.refusal
printf '%s\n' 'deep.c: error 8: depth 9' >wanted.depth
# main and `add` for main; the handler and `add` for the handler. Where their code stands isn't fixed.
cat >wanted.frames <<'MAP'
frame main main 0020 3
frame main add 0023 10
frame isr h 002D 3
frame isr add 0030 10
MAP

# the status of the launcher with these words, whose output is left in `printed`
run() {
    "$top/picc" "$@" >printed
    printf '%s' "$?"
}

# status, file of the wanted output, words
expect() {
    wanted_status=$1
    wanted=$2
    shift 2
    status=$(run "$@")
    [ "$status" = "$wanted_status" ] || wrong "$*: status $status, wanted $wanted_status"
    cmp -s printed "$wanted" || wrong "$*: printed $(cat printed)"
}

cp "$top/examples/led.c" "$top/examples/deep.c" "$top/examples/two_copies.c" . || exit 1
expect 0 wanted.none build led.c led.hex led.map
expect 0 wanted.events sim led.hex led.map wanted.none 1000
grep -v -e '^main ' -e '^halt ' led.map | cmp -s - wanted.map || wrong 'the map is another one'

# words are handed on as they are, blanks included
printf 'int x;\n' >'no program.c'
expect 1 wanted.refusal build 'no program.c' out.hex out.map
expect 1 wanted.depth build deep.c out.hex out.map
[ ! -e out.hex ] || wrong 'a refused program has a HEX'
expect 0 wanted.none build two_copies.c two_copies.hex two_copies.map
grep '^frame' two_copies.map | cmp -s - wanted.frames || wrong 'the frames are others'
expect 2 wanted.usage

# The launcher's own part, in a repository of one crate, with a command rt of this check in place of the kit's: it fails, then it makes a
# program that prints how often it was made and ends with status 5.
small=$PWD/small
mkdir -p small/crates/picc/src small/bin || exit 1
cp "$top/picc" small
printf 'picc:\n' >small/crates.txt
printf 'Handles allowed: none.\n' >small/HANDLES
printf 'fn main() {}\n' >small/crates/picc/src/main.rt
cat >small/bin/rt <<'RT'
#!/bin/sh
printf 'rt: picc NOT PROVED\n'
exit 1
RT
chmod +x small/bin/rt

# the status of that launcher; `printed` has what it prints, `told` what it tells
run_small() {
    PATH=$small/bin:$PATH "$small/picc" "$@" >printed 2>told
    printf '%s' "$?"
}

[ "$(run_small a b)" = 70 ] || wrong 'a build that failed has another status than 70'
grep -q '^rt: picc NOT PROVED$' told || wrong 'the crate that was not proved is not named'
grep -q "^picc: the compiler was not built; $small/target/picc/log has all that was said\$" told || wrong 'the log is not named'
grep -q 'NOT PROVED' small/target/picc/log || wrong 'there is no log'

cat >small/bin/rt <<'RT'
#!/bin/sh
count=$(cat "$COUNT" 2>/dev/null || printf 0)
count=$((count + 1))
printf '%s' "$count" >"$COUNT"
mkdir -p crates/picc/out
printf '#!/bin/sh\nprintf "%%s of %s\\n" "$*"\nexit 5\n' "$count" >crates/picc/out/picc
chmod +x crates/picc/out/picc
printf 'rt: picc proved\n'
RT
COUNT=$PWD/count
export COUNT
[ "$(run_small a 'b c')" = 5 ] || wrong 'the status is not handed on'
[ "$(cat printed)" = 'a b c of 1' ] || wrong 'the program that was made does not run'
grep -q '^picc: crate 1 of 1 is proved: picc$' told || wrong 'how far a build is was not told'
[ "$(run_small)" = 5 ] && [ "$(cat printed)" = ' of 1' ] && [ ! -s told ] || wrong 'a program that stands was made again, or more was told'
printf '// changed\n' >>small/crates/picc/src/main.rt
[ "$(run_small)" = 5 ] && [ "$(cat printed)" = ' of 2' ] || wrong 'no new program for changed sources'
exit $failed
