#!/bin/sh
# Time and memory of each command at its limits. It tests nothing. It wants GNU time.
# A line each: the command, seconds, the most memory in KB, the status if it isn't 0, and what is printed: its last line.
set -u
. "$(dirname -- "$0")/../checks/lib/common.sh" || exit 1
enter_folder
first_build

# the words of a command
measure() {
    figures=$(measured "$@")
    printf 'picc %s: %s; %s\n' "$*" "$(printf '%s' "$figures" | tr '\n' ' ')" "$(tail -n 1 printed)"
}

cp "$top"/examples/*.c "$top"/examples/*.txt .
# forty arrivals, and as many as a script of 4 MB has
awk 'BEGIN { for (i = 1; i <= 40; i++) print "at " i * 2400 " TMR0IF" }' >forty
awk 'BEGIN { for (i = 1; i <= 240000; i++) print "at " i * 4 " TMR0IF" }' >many
# a waiting loop, and a handler that never clears its flag
printf 'void interrupt h(void){PORTB=1;TMR0IF=0;}void main(void){INTCON=0xA0;for(;;);}' >waits.c
printf 'void interrupt h(void){PORTB=1;}void main(void){INTCON=0xA0;for(;;);}' >stuck.c

for name in pump meter lock lights; do
    measure build "$name.c" "$name.hex" "$name.map"
done
measure trace meter.c meter.txt 1000000
measure sim pump.hex pump.map forty 1000000
measure sim pump.hex pump.map many 1000000
for name in pump waits stuck; do
    measure agree "$name.c" forty 100000
done
measure agree lights.c lights.txt 100000
measure gen 64
