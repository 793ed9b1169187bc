#!/bin/sh
# Time and memory of building and tracing the largest texts. It tests nothing. It wants GNU time.
# A line each: what the text is, its bytes, the status if it isn't 0, seconds, the most memory in KB, and what is printed.
set -u
. "$(dirname -- "$0")/../checks/lib/common.sh" || exit 1
enter_folder
first_build

# what the text is, the text
measure() {
    printf '%s' "$2" >a.c
    figures=$(measured build a.c a.hex a.map)
    printf '%s: %s bytes, %s%s\n' "$1" "$(wc -c <a.c)" "$figures" "$(sed 's/^/, /' printed)"
}

page=$(repeated 'PORTB=5;' 146)
measure 'all four pages' "void f(void);void g(void);void h(void);void main(void){f();g();h();$(repeated 'PORTB=5;' 130)}void f(void){$page}void g(void){$page}void h(void){$page}"
measure 'functions without a call' "$(awk 'BEGIN { for (i = 0; i < 10500; i++) printf "void u%d(int x){x=x+1;}", i }')void main(void){}"
measure 'sums' "int f(int x){return x$(repeated '+x' 60);}int g(int x){return x$(repeated '*x' 30);}int r;void main(void){r=f(1)+g(2);}"
measure 'prefixes in one another' "int x;void main(void){x=$(repeated '+ ' 8000)x;}"
measure 'choices in one another, not called' "void f(int x){$(repeated 'x?' 2045)x$(repeated ':x' 2045);}void main(void){}"
for name in pump meter lock; do
    measure "examples/$name.c" "$(cat "$top/examples/$name.c")"
done
printf 'a trace of 1,000,000 steps: %s\n' "$(measured trace "$top/examples/meter.c" "$top/examples/meter.txt" 1000000)"
