#!/bin/sh
# Texts as deep as the limits allow are answered within a call stack of 8 MiB, and what is accepted is traced within it too. What takes
# more code than there is room for stands in a function that main doesn't call; what takes little stands in main, and is compiled.
set -u
. "$(dirname -- "$0")/lib/common.sh" || exit 1
enter_folder
first_build
: >empty.txt

# what the text is, the wanted status and line, the text
expect() {
    printf '%s\n' "$4" >a.c
    printed=$(ulimit -s 8192 && "$picc" build a.c a.hex a.map)
    status=$?
    [ "$status $printed" = "$2 $3" ] || wrong "$1: status $status, printed $printed, wanted status $2, $3"
    [ "$2" -eq 0 ] || return
    (ulimit -s 8192 && "$picc" trace a.c empty.txt 10) >trace.txt || wrong "$1: traced, status $?"
}

# what the expression is, the expression over `int x`, the statements round it
accepted() {
    expect "$1" 0 '' "void f(int x){$3$2;}void main(void){PORTB=PORTC;}"
}

# what the expression is, the expression over `int x`
compiled() {
    expect "$1" 0 '' "int x;void main(void){x=$2;}"
}

accepted 'choices in one another' "$(repeated 'x?' 2045)x$(repeated ':x' 2045)" ''
accepted 'choices within loops' "$(repeated 'x?' 1790)x$(repeated ':x' 1790)" "$(repeated 'while(x)' 250)"
accepted 'choices within brackets' "$(repeated '(' 60)$(repeated 'x?' 2000)x$(repeated ':x' 2000)$(repeated ')' 60)" ''
accepted 'a chain of choices' "$(repeated 'x?1:' 2045)x" ''
accepted 'prefixes' "$(repeated '~' 8000)x" ''
accepted 'a long sum' "x$(repeated '+x' 4000)" ''
accepted 'a long assignment' "$(repeated 'x=' 4000)x" ''
expect 'a chain of members' 0 '' \
    "struct s{struct s*p;}*p;void f(void){p$(repeated '->p' 4000);}void main(void){PORTB=PORTC;}"
expect 'choices without their ends' 1 'a.c:1: error 4: syntax' "void f(int a){$(repeated 'a?' 3000)a;}void main(void){}"

# The body of a structure ends a run of tokens within an expression, so that choices may stand in one another as deep as a text is long.
# In the name of a type it is refused.
body='(struct{int y;}*)x'
no_tree() {
    expect "$1" 1 'a.c:1: error 4: syntax' "int x;void main(void){x=$2}"
}
no_type() {
    expect "$1" 1 'a.c:1: error 5: declare' "int x;void main(void){x=$2}"
}
no_tree '2,049 choices round a body, one without its end' "$(repeated 'x?' 2049)$body$(repeated ':x' 2048);"
no_type '2,049 choices round a body' "$(repeated 'x?' 2049)$body$(repeated ':x' 2049);"
no_type 'as many choices round a body as a run has room for' "$(repeated 'x?' 4094)$body$(repeated ':x' 4094);"
front=$(repeated "$(repeated 'x?' 4085)$body?" 16)
back=$(repeated "$(repeated ':x' 4085):$body" 16)
no_type 'as many choices as a text has room for' "${front}x$back;"
no_tree '.. one without its end' "${front}x${back#:x};"
no_tree '.. without a semicolon' "${front}x$back"
no_tree 'twice as many without their ends' "$front$front"
front=$(repeated "$(repeated 'x?' 4085)$body?" 8)
back=$(repeated "$(repeated ':x?x:x' 1361):x?x:$body" 24)
no_tree 'choices in one another, with a choice behind each, without a semicolon' "${front}x$back"
compiled 'prefixes without code' "$(repeated '+ ' 8000)x"
compiled 'addresses and what they point to' "$(repeated '*&' 4000)x"
compiled 'casts without code' "$(repeated '(int)' 2700)x"
compiled 'brackets' "$(repeated '(' 60)x$(repeated ')' 60)"
exit $failed
