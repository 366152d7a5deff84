#!/bin/sh
# Runs the bench program on files and hex: text, and compares what it says and its exit statuses with the transcripts in
# tests/expected/. There a line that came on standard error begins with "! ".
#
#     tests/bench_test.sh BENCH [RESULTS]
#
# RESULTS, build/bench_test if it is left out, is emptied and gets the transcripts of this run and the files that it makes. With the
# variable STOP set the first transcript that differs ends the test.
. "$(dirname "$0")/start.sh"

if [ $# -lt 1 ]; then
    echo "usage: tests/bench_test.sh BENCH [RESULTS]" >&2
    exit 2
fi
bench=$(realpath "$1") || exit 2
enter "${2:-$root/build/bench_test}" && cp "$root"/examples/* . || exit 2

commands=0

# transcript NAME: what follows goes to this transcript.
transcript() {
    name=$1
    : >"$name.txt"
}

# say COMMAND LINE: writes it to the transcript.
say() {
    commands=$((commands + 1))
    printf '$ %s\n' "$*" >>"$name.txt"
}

# heard STATUS: writes what came on either stream, in the files out and err, and the exit status.
heard() {
    cat out >>"$name.txt"
    sed 's/^/! /' err >>"$name.txt"
    echo "[$1]" >>"$name.txt"
}

# try ARGUMENT...: runs the bench with these arguments.
try() {
    say pilgodur "$@"
    "$bench" "$@" >out 2>err </dev/null
    heard $?
}

# pipe COMMAND LINE: runs a line of the shell in which pilgodur is the bench.
pilgodur() {
    "$bench" "$@"
}
pipe() {
    say "$@"
    eval "$*" >out 2>err
    heard $?
}

# judge: compares the transcript with the expected one.
judge() {
    if ! diff -u "$root/tests/expected/$name.txt" "$name.txt"; then
        echo "FAILED: $name"
        failures=$((failures + 1))
        [ -z "${STOP-}" ] || exit 1
    fi
}

# Tables that each of the questions 1 to 7 refuses.
q1=hex:0100010102000100030003
q2=hex:0100010d
q3=hex:01000101020000
q4=hex:0100010102000100
q5=hex:01000101020001000300020002
q6=hex:0100010202000100030002000103000400010001
q7=hex:0100010202000100030002010003000400010100
# Netlists that questions 11 and 12 refuse.
q11=hex:010001010400010005000400020003
q12=hex:01000101040005020002000305000400040003

# Tables with spare contacts: the first of two; both, and the constants 0 and 1 as outputs; the only one, and 0 as the output; all but
# the last of twelve. In spare.table the first and the last of four are spare.
first_spare=hex:010001020200010003000200000300020001
both_spare=hex:0100010202000200010300040000010103000400000101
only_spare=hex:01000101020001000300020000
eleven_spare=hex:0100010c02000100$(printf '0300020000%.0s' 1 2 3 4 5 6 7 8 9 10 11)0300020001

# netlist CONTACTS "KIND SOURCE SOURCE ..." "TRUE FALSE ..." ["TRUE FALSE"]: the hex: text of a netlist, with a lamp or without.
netlist() {
    n=$1 outputs=$3 lamp=${4-} gates='' length=0
    # shellcheck disable=SC2086
    set -- $2
    while [ $# -gt 0 ]; do
        kind=0
        [ "$1" = OR ] && kind=1
        gates=$gates$(printf '%02x%04x%04x' "$kind" "$2" "$3")
        length=$((length + 5))
        shift 3
    done
    # shellcheck disable=SC2086
    set -- $outputs
    printf 'hex:010001%02x04%04x%s05%04x%s' "$n" "$length" "$gates" $((2 * $#)) "$(printf '%04x' "$@")"
    # shellcheck disable=SC2086
    [ -z "$lamp" ] || printf '060004%04x%04x' $lamp
}

transcript check
try check selector.table
try check single.table
try check lift.table
try check widest.table
try check @selector.table
try check 'hex:01 00 01 01 02 00 01 00 03 00 02 00 01'
pipe 'pilgodur check - <selector.table'
for table in $q1 hex: $q2 $q3 $q4 hex:010001010200010003000100 hex:0100010102000100030012000000000000000000000000000000000000 \
    $q5 $q6 $q7 spare.table $first_spare $both_spare $only_spare "$eleven_spare"; do
    try check "$table"
done
try check selector.netlist
judge

transcript build
try build selector.table
try build single.table
try build selector.table -o built.netlist
pipe 'cmp built.netlist selector.netlist'
try build widest.table -o widest.netlist
pipe 'cksum <widest.netlist'
pipe 'pilgodur build widest.table -o - | cksum'
pipe 'pilgodur build widest.table | cksum'
try build spare.table -o spare.netlist
try build spare.table
try build $first_spare
try build $both_spare
try build hex:
try build $q6 -o built.netlist
pipe 'cmp built.netlist selector.netlist'
try build selector.table -o no/such/folder
try build selector.table -o .
# With the lamp: one output, two, two constants, three, eight.
try build single.table --lamp
try build --lamp spare.table
try build $both_spare --lamp
try build lift.table --lamp
try build lift.table --lamp -o lift-lamp.netlist
pipe 'pilgodur build lift.table --lamp -o - | cmp - lift-lamp.netlist'
try build widest.table --lamp -o widest-lamp.netlist
pipe 'wc -c <widest-lamp.netlist; cksum <widest-lamp.netlist'
try build $q6 --lamp
judge

transcript list
try list selector.table
try list selector.netlist
try list single.table
try list lift.table
try list spare.table
try list $both_spare
try list "$(netlist 1 'OR 0 1 AND 4 4' '5 0 1 3')"
pipe 'pilgodur build selector.table -o - | pilgodur list -'
pipe 'pilgodur list selector.netlist | cmp - "$root/tests/expected/sheet.txt"'
pipe 'pilgodur list widest.table | sed -n "1,3p; 51,54p; 102,104p"'
pipe 'pilgodur list widest.table | tail -n 9'
pipe 'pilgodur list widest.table | cksum'
pipe 'pilgodur list widest.netlist | cksum'
pipe 'pilgodur list - <widest.netlist | cksum'
pipe 'pilgodur build widest.table | pilgodur list - | cksum'
# 10,560 gates and 8 outputs: no table has a larger netlist without the lamp.
pipe '{ echo hex:0100010c04ce40; yes 0000020003 | head -n 10560; echo 050020; yes 29592958 | head -n 8; } >largest.hex'
pipe 'pilgodur list largest.hex | sed -n "10174,10175p; 10780,\$p"'
pipe 'pilgodur list largest.hex | cksum'
try list single.table --lamp
try list spare.table --lamp
try list --lamp $both_spare
try list lift-lamp.netlist
pipe 'pilgodur list lift-lamp.netlist >lift.sheet; pilgodur list lift.table --lamp | cmp - lift.sheet'
pipe 'pilgodur list widest.table --lamp | tail -n 16'
pipe 'pilgodur list widest.table --lamp | cksum'
pipe 'pilgodur list widest-lamp.netlist | cksum'
# A netlist stays as it is.
pipe 'pilgodur list selector.netlist --lamp | cmp - "$root/tests/expected/sheet.txt"'
# A lamp on a page of its own, and the largest netlist with one: 10,602 gates.
pipe '{ echo hex:010001010400f5; yes 0000020003 | head -n 49; echo 0500040002000306000400030002; } >49.hex'
pipe 'pilgodur list 49.hex | tail -n 4'
pipe '{ echo hex:0100010c04cf12; yes 0000020003 | head -n 10602; echo 050020; yes 29832982 | head -n 8; echo 06000429822983; } >lamp.hex'
pipe 'pilgodur list lamp.hex | sed -n "10800,\$p"'
pipe 'pilgodur list lamp.hex | wc -c'
pipe '{ echo hex:0100010c04cf17; yes 0000020003 | head -n 10603; echo 05000400020003; } | pilgodur list -'
# A lamp twice, of another length, of another tag, with bytes behind it, before the outputs, instead of them, of a line that is not there.
for lamp in 0600040002000306000400020003 060000 060003000200 0600050002000300 0600080002000300020003 07000400020003 0600040002000300 \
    0600040002 06000400040003 06000400020004; do
    try list "hex:0100010104000005000400020003$lamp"
done
try list hex:010001010400000600040002000305000400020003
try list hex:0100010104000006000400020003
try list $q6
try list $q6 --lamp
try list $q11
try list $q12
try list hex:01000101040000
try list hex:0100010104000005000400020004
try list hex:0100010d0400000500040002001b
judge

# A drawing of the selector's functions that repeats a node, and has one that nothing mentions and that skips levels.
selector_drawing=hex:0100010302000103070012010500000206000001020001010701020001
# Five functions of contact 0 that lead to nine of the other two; without the last output they lead to eight.
cat >nine.drawing <<end
contacts 3
outputs a b c d e
a 0 s0 s1
b 0 s2 s3
c 0 s4 s5
d 0 s6 s7
e 0 s0 s8
s0 1 x 0
s1 1 0 x
s2 1 x 1
s3 1 1 x
s4 1 y 0
s5 1 0 y
s6 1 y 1
s7 1 1 y
s8 1 x y
x 2 0 1
y 2 1 0
end
sed 's/ e$//' nine.drawing >eight.drawing
# nodes COUNT OUTPUTS: text with so many nodes and these outputs; each node leads to the one after it, by turns by its 0-edge.
nodes() {
    awk -v count="$1" -v outputs="$2" 'BEGIN {
        print "contacts 12\noutputs", outputs
        for (i = 0; i < count; i++) {
            next_node = i % 12 < 11 && i + 1 < count ? "n" i + 1 : 0
            print "n" i, i % 12, i % 2 == 0 ? next_node : 1, i % 2 == 0 ? 1 : next_node
        }
    }'
}
# text LINE...: draws from these lines.
text() {
    printf '%s\n' "$@" | pilgodur draw -
}

transcript draw
try draw gallery.drawing
try draw gallery.drawing -o gallery.table
pipe 'pilgodur draw @gallery.drawing | pilgodur check -'
pipe 'pilgodur draw - <gallery.drawing | pilgodur list -'
pipe 'pilgodur draw gallery.drawing -o - | cmp - gallery.table'
pipe 'pilgodur draw gallery.drawing | pilgodur compare - gallery.table'
try draw $selector_drawing
pipe 'pilgodur draw $selector_drawing -o - | cmp - selector.table'
pipe 'echo "$selector_drawing" >selector.hex; pilgodur draw selector.hex -o - | cmp - selector.table'
# The same drawing with other line ends, blanks, comments and names, and with its nodes in another sequence.
pipe 'sed "s/\$/\r/" gallery.drawing | pilgodur draw -o - - | cmp - gallery.table'
pipe 'tr " " "\t" <gallery.drawing | pilgodur draw -o - - | cmp - gallery.table'
pipe 'sed "/^draft/d; s/ *#.*//; /^\$/d" gallery.drawing | pilgodur draw -o - - | cmp - gallery.table'
pipe 'sed "s/travel/contacts/; s/west/outputs/g; s/parked/2/g; s/east/00/g" gallery.drawing | pilgodur draw -o - - | cmp - gallery.table'
pipe '{ sed -n "/^[co]/p" gallery.drawing; sed "/^[#co]/d" gallery.drawing | sort; } | pilgodur draw -o - - | cmp - gallery.table'
pipe 'printf "\n\r\n # \n\tcontacts\t01 # one\noutputs a#b\n\na 0 0 1#" | pilgodur draw -'
# Constants as outputs, a node with equal edges, the longest names, as many nodes as there may be.
try draw 'hex:01000101 02000100 070000'
try draw 'hex:01000102 020003000102 070003010101'
try draw 'hex:0100010c 0200080001020001020001 0700030b0001'
pipe 'text "contacts 3" "outputs 0 1 1"'
pipe 'text "contacts 12" "outputs -._Az09" "-._Az09 11 1 0"'
pipe 'a=$(printf "%0200d" 7); text "contacts 1" "outputs $a" "$a 0 0 1"'
pipe 'nodes 200 "n0 n12 n24 n199" | pilgodur draw -'
# Question 17, with and without the ninth function; one that nothing mentions does not count.
try draw eight.drawing
try draw nine.drawing
try draw nine.drawing -o gallery.table
pipe 'text "contacts 4" "outputs x y v k" "x 0 a b" "y 0 c d" "v 0 e f" "k 0 g h" "a 1 p q" "b 1 r s" "c 1 t u" "d 1 w z" "e 1 0 p" \
    "f 1 q r" "g 1 p z" "h 1 z p" "p 2 0 1" "q 2 1 0" "r 2 0 z" "s 2 z 1" "t 2 z n" "u 2 n z" "w 2 1 z" "z 3 0 1" "n 3 1 0"'
pipe 'pilgodur draw gallery.drawing -o - | cmp - gallery.table'
# Question 16: fields.
for drawing in '' 01 0100 010001 01000101 0100010102 01000101020001 01000101020001000700 0100010102000100070003 \
    02000101 01000001 0100020101 01000100 0100010d 010001ff 0100010103000100 01000101020000070000 010001010200010003000200 \
    01000101020009000000000000000000070000 0100010102000100080000 010001010200010007000100 0100010102000100070004000001 \
    01000101020001000700020000 010001010200010007000000 010001010200010007000007 0100010102000100070000070000; do
    try draw "hex:$drawing"
done
try draw selector.table
try draw selector.netlist
# Question 16: numbers, levels and edges.
for outputs_and_nodes in 02000102070000 0200020003070003000001 02000103070003010001 02000102070003020001 020001020700030c0001 \
    0200010207000300ff01 02000102070003000003 02000102070003000201 02000102070006000301000001 02000102070006010301000001 \
    02000103070006000001010102; do
    try draw "hex:01000102$outputs_and_nodes"
done
pipe '{ printf "\001\0\001\002\002\0\001\0\007\002\133"; head -c 603 /dev/zero; } | pilgodur draw -'
pipe 'text "contacts 0" "outputs 0"'
pipe 'text "contacts 13" "outputs 0"'
pipe 'text "contacts 255" "outputs 0"'
pipe 'text "contacts 2" outputs "a 0 0 1"'
pipe 'text "contacts 2" "outputs 0 0 0 0 0 0 0 0 0"'
pipe 'text "contacts 2" "outputs $(yes 1 | head -n 70000 | tr "\n" " ")"'
pipe 'text "contacts 2" "outputs a" "a 2 0 1"'
pipe 'text "contacts 2" "outputs 0" "# far" "a 255 0 1"'
pipe 'text "contacts 2" "outputs a" "" "a 1 b 1" "b 0 0 1"'
pipe 'text "contacts 2" "outputs a" "a 0 b 1" "b 0 0 1" "c 5 0 1"'
pipe 'text "contacts 2" "outputs b" "b 0 0 1" "unused 1 1 unused"'
pipe 'a=$(printf "%0200d" 7); text "contacts 1" "outputs $a" "$a 0 0 $a"'
for count in 201 253 254 255 300 22000; do
    pipe "nodes $count n0 | pilgodur draw -"
done
pipe 'nodes 300 n299 | pilgodur draw -'
# Text that is of no form.
pipe 'printf "# nothing\n\n" | pilgodur draw -'
pipe 'text "contacts 3"'
pipe 'text "" "contact 3"'
pipe 'text contacts'
pipe 'text "contacts 3 4"'
pipe 'text "contacts three"'
pipe 'text "contacts -1"'
pipe 'text "contacts 256"'
pipe 'text "contacts 4294967297" "outputs 0"'
pipe 'text "contacts 3" "# outputs" "a 0 0 1"'
pipe 'text "outputs a" "contacts 3"'
pipe 'text "contacts 3" "outputs a b" "a 0 0 1"'
pipe 'text "contacts 3" "outputs 2" "a 0 0 1"'
pipe 'text "contacts 3" "outputs a" "a 0 0 1" "b 0 0"'
pipe 'text "contacts 3" "outputs a" "a 0 0 1 1"'
pipe 'text "contacts 3" "outputs a" "a x 0 1"'
pipe 'text "contacts 3" "outputs a" "a 300 0 1"'
pipe 'text "contacts 3" "outputs a" "a 0 0 b"'
pipe 'text "contacts 3" "outputs a" "a 0 A 1"'
pipe 'text "contacts 3" "outputs a" "a 0 0 1" "b 1 0 1" "a 2 0 1"'
pipe 'text "contacts 3" "outputs 0" "1 0 0 1"'
pipe 'text "contacts 3" "outputs a:b"'
pipe 'printf "contacts 1\noutputs a\na 0 0 1\0\n" | pilgodur draw -'
pipe 'printf "\357\273\277contacts 1\noutputs 0\n" | pilgodur draw -'
pipe '{ nodes 22000 n0; echo n5 0 0 1; } | pilgodur draw -'
pipe 'nodes 22000 n22000 | pilgodur draw -'
pipe 'printf "contacts 1" >bad.drawing; pilgodur draw bad.drawing -o gallery.table; pilgodur draw gallery.drawing | pilgodur compare - gallery.table'
try draw hex:636f6e74616374733120
try draw hex:010
try draw no-such.drawing
try draw
try draw gallery.drawing --lines
try draw gallery.drawing -o gallery.drawing
judge

# A rule sheet of the selector's functions.
selector_rules=hex:010001030800010109000402000000090004020001010900040001020009000401010201
# split CONTACTS COUNT PERMITS: text with so many rules: contact 0 is open, or it is closed and contact 1 is open, and so on; then the rest.
split() {
    awk -v contacts="$1" -v count="$2" -v permits="$3" 'BEGIN {
        for (k = 0; k < count; k++) {
            for (i = 0; i < contacts; i++)
                printf "%s", (i > k || (i == k && k == count - 1) ? "-" : i == k ? 0 : 1)
            print " : " permits
        }
    }'
}
# full CONTACTS FROM FIXED: text with a rule for each setting of so many contacts from one on; the permit is their count, odd or not.
full() {
    awk -v contacts="$1" -v from="$2" -v fixed="$3" 'BEGIN {
        for (a = 0; a < 2 ^ fixed; a++) {
            odd = 0
            for (i = 0; i < contacts; i++) {
                bit = int(a / 2 ^ (i - from)) % 2
                sign = i < from || i >= from + fixed ? "-" : bit
                odd = sign == "-" ? odd : (odd + bit) % 2
                printf "%s", sign
            }
            print ":" odd
        }
    }'
}
# wide OUTPUTS: text with twice as many functions of contacts 1 and 2 as there are outputs.
wide() {
    awk -v outputs="$1" 'BEGIN {
        for (a = 0; a < 8; a++) {
            printf "%d%d%d : ", a % 2, a / 2 % 2, a / 4
            for (j = 0; j < outputs; j++)
                printf "%d", (2 * j + a % 2 + 1) / 2 ^ int(a / 2) % 2
            print ""
        }
    }'
}
# rules LINE...: makes the table of these lines.
rules() {
    printf '%s\n' "$@" | pilgodur rules -
}

transcript rules
try rules gallery.rules
try rules gallery.rules -o ruled.table
pipe 'cmp ruled.table gallery.table'
pipe 'pilgodur rules @gallery.rules | pilgodur check -'
pipe 'pilgodur rules - <gallery.rules -o - | cmp - gallery.table'
pipe 'pilgodur rules gallery.rules | pilgodur compare - gallery.table'
try rules $selector_rules
pipe 'pilgodur rules $selector_rules -o - | cmp - selector.table'
pipe 'echo "$selector_rules" >selector.hex; pilgodur rules selector.hex -o - | cmp - selector.table'
pipe 'rules "-00:0" "-01:1" "01-:0" "11-:1" | pilgodur compare - selector.table'
# The same rules with other line ends, blanks and comments, and in another sequence.
pipe 'sed "s/\$/\r/" gallery.rules | pilgodur rules -o - - | cmp - gallery.table'
pipe 'tr " " "\t" <gallery.rules | pilgodur rules -o - - | cmp - gallery.table'
pipe 'sed "s/#.*//; s/ //g; /^\$/d" gallery.rules >close.rules; cat close.rules; pilgodur rules close.rules -o - | cmp - gallery.table'
pipe 'sort close.rules | pilgodur rules -o - - | cmp - gallery.table'
pipe 'sort -r close.rules | pilgodur rules -o - - | cmp - gallery.table'
pipe 'printf "\n\r\n # \n\t- :\t1 # one: 1\n\n#1:1" | pilgodur rules -'
pipe 'printf "0:1\n1:0" | pilgodur rules -'
pipe 'printf "\r\n0:1\n1:0#" | pilgodur rules -'
# One rule, the most rules, contacts and outputs, rules that fix the first contacts, the last, or one contact.
pipe 'rules "------------:10101010"'
pipe 'split 12 12 01 | pilgodur rules -'
for fixed in 'full 12 0 6' 'full 12 6 6' 'full 12 3 6' 'full 6 0 6' 'full 12 11 1'; do
    pipe "$fixed | pilgodur rules -"
done
pipe 'rules "0 : 11111111" "1 : 01111110"'
# Question 19: neighbours, the same rule twice with the same permits, the first two of three, the smallest input of several; also if an
# input fits no rule.
pipe 'rules "01-:1" "0--:1" "1--:0"'
pipe 'rules "0-:0" "1-:1" "" "1-:1"'
pipe 'rules "0-:0" "10:1" "11:1" "11:0"'
pipe 'rules "---:0" "# either" "-1-:1" "111:0"'
pipe 'rules "1--:1" "-1-:1" "--1:1"'
pipe 'rules "11------ ----:0" "-----------0:1"'
try rules 'hex:01000102 08000101 090003010200 090003000200 090003010101 090003020001'
try rules 'hex:800000 01000101 8000013a 08000101 0900020100 ff0000 0900020201 0900020200 ff000102'
pipe 'full 12 6 6 | sed "\$s/1:0/-:0/" | pilgodur rules -'
# Question 20.
pipe 'rules "1:1"'
pipe 'rules "0:1"'
pipe 'rules "0--:0" "10-:1" "111:1"'
pipe 'split 12 12 1 | sed "\$d" | pilgodur rules -'
pipe 'full 12 0 6 | sed "3d; 40d" | pilgodur rules -'
try rules 'hex:01000103 08000102 09000402020103'
try rules 'hex:01000103 08000102 0900040202000381000009000401010102' -o ruled.table
pipe 'cmp ruled.table gallery.table'
# Question 17: ten functions of two contacts, and eight; with contacts before them, or behind.
pipe 'wide 5 >wide.rules; pilgodur rules wide.rules'
pipe 'wide 4 | pilgodur rules -'
pipe 'sed "s/^/-/" wide.rules | pilgodur rules -'
pipe 'sed "s/^/------/" wide.rules | pilgodur rules -'
pipe 'sed "s/:/---:/" wide.rules | pilgodur rules -'
# Question 18: fields.
for sheet in '' 01 0100 010001 01000101 0100010108 01000101080001 0100010108000101 010001010800010109 01000101080001010900 \
    010001010800010109000202 08000101 01000001 0100020101 01000100 0100010d 010001ff 0100010102000100 01000101080000 \
    0100010108000201020900020200 0100010108000100 0100010108000109 01000101080001ff 01000101080001010700020200 \
    010001010800010109000100 01000101080001010900030202 0100010108000101090003020200 01000101080001010900020300 \
    0100010108000101090002ff00 01000101080001010900020202 01000101080001070900020280 0100010208000101090003020300; do
    try rules "hex:$sheet"
done
for behind in 09 070000 0900020100 090000 08000101 0900030202; do
    try rules "hex:0100010208000101090003000200$behind"
done
try rules hex:01000101090002020008000101
try rules selector.table
try rules selector.netlist
try rules hex:efbbbf303a30
pipe 'printf "\357\273\277-:1\n" | pilgodur rules -'
# Question 18: counts.
pipe 'full 6 0 6 >64.rules; pilgodur rules 64.rules | cksum'
pipe '{ echo; echo "# a sheet"; cat 64.rules; echo "# 65"; echo "------:0"; } | pilgodur rules -'
pipe '{ cat 64.rules; yes -- "------:0" | head -n 70000; } | pilgodur rules -'
pipe '{ echo hex:01000101 08000101; yes 0900020200 | head -n 65; } | pilgodur rules -'
pipe '{ echo hex:01000101 08000101; yes 0900020200 | head -n 70; } | pilgodur rules -'
pipe '{ echo hex:01000101 08000101; yes 0900020200 | head -n 64; echo 0900020300; } | pilgodur rules -'
pipe 'rules "-------------:1"'
pipe 'rules "" "$(printf "%0300d" 0):1" "$(printf "%0300d" 0):1"'
pipe 'rules "" "" ":1" ":0"'
pipe 'rules "-:"'
pipe 'rules "# none" " : "'
pipe 'rules "0:011111111" "1:100000000"'
pipe 'rules "0:$(printf "%070000d" 0)" "1:$(printf "%070000d" 1)"'
pipe 'rules "-------------:000000000"'
# Text that is of no form.
pipe 'printf "# nothing\n\n" | pilgodur rules -'
pipe 'printf " " | pilgodur rules -'
pipe 'rules "-1 1"'
pipe 'rules "0:1" "1 # : 0"'
pipe 'rules "0:1" "2:0"'
pipe 'rules "0:1" "" "1:-"'
pipe 'rules "0:1" "1:2"'
pipe 'rules "0:1:1" "1:0"'
pipe 'rules "x:1"'
pipe 'rules "0|1"'
pipe 'rules "00:1" "01:1" "1:1"'
pipe 'rules "# counts" "0:1" "" "10:1"'
pipe 'rules "00:1" "01:11" "1-:1"'
pipe 'rules "0:11" "1:1"'
pipe 'rules "0:1" "11:11"'
pipe '{ cat 64.rules; yes -- "------:0" | head -n 70; echo "------:2"; } | pilgodur rules -'
pipe 'printf "0:1\n1:0\0\n" | pilgodur rules -'
pipe 'printf "0:1\n1:0\v\n" | pilgodur rules -'
pipe 'pilgodur draw gallery.rules'
pipe 'pilgodur rules gallery.drawing'
pipe 'printf "0" >bad.rules; pilgodur rules bad.rules -o ruled.table; cmp ruled.table gallery.table'
try rules hex:303a310a313a30
try rules hex:0900020200
try rules hex:010
try rules no-such.rules
try rules
try rules gallery.rules gallery.rules
try rules gallery.rules --lines
try rules gallery.rules --note x
try rules gallery.rules -o gallery.rules
judge

transcript hex
pipe 'pilgodur build selector.table | pilgodur list -'
pipe 'pilgodur build selector.table >selector.hex; pilgodur compare selector.hex selector.table'
pipe 'pilgodur build widest.table | fold -w 79 >widest.hex; pilgodur compare widest.hex widest.table'
pipe 'printf "hex:01 00 01 01\r\n\t02 00 01 00\r\n03 00 02 00 01\r\n" | pilgodur check -'
pipe 'pilgodur build selector.table | tr abcdf ABCDF | pilgodur compare - selector.table'
pipe 'printf "HEX:" | pilgodur check -'
pipe 'printf "hex:0100:" >bad.hex; pilgodur check bad.hex'
pipe 'printf "hex:01000" | pilgodur check -'
pipe 'printf "hex:0100\0" | pilgodur check -'
pipe 'printf "hex:" | pilgodur check -'
pipe 'printf "hex:000100010001" >rails.hex; pilgodur run selector.netlist rails.hex'
try check hex:010
try check hex:0g
try check hex:010001010200010003000200010203040506
judge

transcript read-off
for input in 0 1 2 3 4 5 6 7 8; do
    try read-off selector.table "$input"
done
try read-off selector.table contacts:110
try read-off selector.table contacts:001
try read-off lift.table 15
try read-off lift.table contacts:0010
try read-off spare.table contacts:0010
try read-off spare.table contacts:1011
try read-off $both_spare 3
try read-off hex: 0
try read-off hex: contacts:000
try read-off $q6 8
try read-off selector.table 4294967295
try read-off selector.table 4294967296
try read-off selector.table 18446744073709551616
try read-off selector.table 3x
try read-off selector.table 0x3
try read-off selector.table ''
try read-off selector.table contacts:
try read-off selector.table contacts:11
try read-off selector.table contacts:1100
try read-off selector.table contacts:112
try read-off selector.table contacts:1111111111111111111111111111111111111111
judge

transcript run
try run selector.netlist 3
try run selector.netlist contacts:110
try run selector.netlist 6 10=0
try run selector.netlist 6 10=0 --lines
try run selector.netlist contacts:000 14=0 16=1
try run selector.netlist 0 8=1 9=1 16=1 --lines
try run selector.netlist 0 10=0
try run selector.netlist 3 10=1
try run selector.netlist hex:000000000000
# Both rails of the spare contacts at 0, then held at 1: no pair changes.
try run spare.netlist hex:0000010001000000
try run spare.netlist 6 2=1 3=1 8=1 9=1
pipe 'printf "\0\001\0\001\0\001" >3; pilgodur run selector.netlist @3'
pipe 'printf "\0\001\0\001\0\001" | pilgodur run selector.netlist -'
pipe 'pilgodur build selector.table | pilgodur run - 3'
pipe 'pilgodur run widest.netlist 4095 | cksum'
pipe 'pilgodur run widest.netlist 4095 1383=0 1384=1 --lines | cksum'
# The lamp, with none of its gates held and with one; of one output; of constants; the lamp's own lines among all lines.
try run lift-lamp.netlist 5
try run lift-lamp.netlist 5 21=1
try run lift-lamp.netlist contacts:1010 17=0
try run lift-lamp.netlist 5 22=1 33=1
try run lift-lamp.netlist hex:0000000000000000
try run lift-lamp.netlist 5 30=0 --lines
try run lift-lamp.netlist 5 34=0
pipe 'pilgodur build --lamp single.table | pilgodur run - 1 2=0'
pipe 'pilgodur build --lamp $both_spare | pilgodur run - 1'
pipe 'pilgodur run widest-lamp.netlist 4095 | tail -n 2'
# Pins: each of an AND at either value, where one source is 1 and the other 0; of an OR; that of one of a rail's two readers.
for hold in 8.1=0 8.1=1 8.2=0 8.2=1; do
    try run selector.netlist 2 $hold --lines
done
try run selector.netlist 4 16.1=0
try run selector.netlist 4 16.2=0
try run selector.netlist 0 14.2=1 16.1=1
try run selector.netlist 1 9.1=0 --lines
# Both pins of a gate; a line and its pins, where the line's hold decides; lines and pins of other gates; no code input; all pins.
try run selector.netlist 2 8.1=1 8.2=1
try run selector.netlist 0 8=1 8.1=0 8.2=0 --lines
try run selector.netlist 0 8=0 8.1=1 8.2=1 --lines
try run selector.netlist contacts:011 2=1 12=0 16=0 8.2=1 12.1=1 12.2=0 16.2=1 --lines
try run selector.netlist hex:000000000000 13.1=1 13.2=1
pipe 'pilgodur run selector.netlist 5 $(seq 8 16 | sed "s/.*/&.1=1 &.2=1/")'
# Leading zeros; a pin that reads a constant, one of a gate that has one source twice; pins of the lamp's own gates.
try run selector.netlist 2 008.02=01
try run "$(netlist 1 'AND 1 2 OR 4 4 OR 4 4' '4 5 5 6')" 0 4.1=0 4.2=1 5.2=1 6.1=1 --lines
try run lift-lamp.netlist 5 33.1=1 33.2=1
try run lift-lamp.netlist 5 28=0 28.1=1 33.2=1 --lines
pipe 'pilgodur run widest.netlist 4095 1383=0 1383.1=0 1384.2=1 1813.1=1 1813.2=0 --lines | cksum'
try run hex:010001010400000500040002000306000400020004 0
try run selector.table 0
try run $q12 0
try run selector.netlist hex:0001000100
try run selector.netlist hex:000100010002
try run selector.netlist 0 16=1 14=0
try run selector.netlist 0 10=0 10=0
try run selector.netlist 0 1=0
try run selector.netlist 0 17=0
try run selector.netlist 0 16=2
try run selector.netlist 0 65536=0
try run selector.netlist 0 65546=0
try run selector.netlist 0 10=256
try run selector.netlist 0 10=257
try run selector.netlist 0 4294967306=0
try run selector.netlist 8
try run selector.netlist 4294967299
try run selector.netlist contacts:11
try run $q11 8
try run $q12 contacts:11
try run selector.table 8
try run selector.netlist 0x3
try run selector.netlist no-such.rails
try run selector.netlist @no-such.rails
for hold in 16 16= =0 16=0x 16=0=0 16=-1 x=0; do
    try run selector.netlist 0 "$hold"
done
# Question 14: pins of constants, of rails, of a line that is not there; a pin, a line or a value that there is not, also if its bytes are
# those of another hold; a line after a pin; the second pin before the first; a pin twice; a gate before another; several good holds first.
for holds in 0.1=0 1.2=1 2.1=0 7.2=1 17.1=0 65536.1=0 65544.1=0 8.0=1 8.3=0 8.128=0 8.129=0 8.4294967297=0 8=2 8=3 8=4 8=5 8=6 8.1=2 8.1=3 \
    8.2=2 8.2=255 8.1=256 8.1=254 8.3=2 '8.1=0 8=0' '8.1=0 16=1' '8.2=0 8.1=0' '8.1=0 8.1=0' '8.2=0 8.2=1' '9.1=0 8.2=0' '8=0 8=1 8.1=0' \
    '8=0 16=1 8.1=0 9.2=1 7.1=0' '8=0 8.1=0 9.2=2'; do
    # shellcheck disable=SC2086
    try run selector.netlist 0 $holds
done
try run lift-lamp.netlist 5 34.1=0
try run "$(netlist 1 '' '2 3')" 0 4.1=0
# Text that is no hold.
for hold in 8.1 8.1= 8.=0 .1=0 8..1=0 8.1.1=0 8.x=0 8.1=0x 8,1=0 8.-1=0 8.1=0.5 '8. 1=0' 8:1=0 8.1=1=1 8=0.1 .=0 8.=; do
    try run selector.netlist 0 "$hold"
done
try run selector.netlist 0 8=0 8.1
judge

transcript step
# steps CALLS ARGUMENT...: steps with calls from standard input, as printf writes them.
steps() {
    calls=$1
    shift
    pipe "printf '$calls' | pilgodur step $*"
}
# A line held in time; one held too early and too late.
steps '6\n3 10=1 16=0\nall 8=1\n' selector.netlist contacts:110
steps '# rails\n  6\n\n3\t10=1 16=0 # held\r\n   # nothing\nall  8=1' selector.netlist 3
pipe 'printf "6\n3 10=1\n" >calls; printf "all\n" >>calls; pilgodur step selector.netlist 3 calls'
pipe 'pilgodur step selector.netlist 3 @calls | cksum'
pipe 'pilgodur step selector.netlist 3 - <calls | cksum'
pipe 'pilgodur step selector.netlist 3 <calls | cksum'
try step selector.netlist 3 hex:360a3320313d300a
try step selector.netlist 3 hex:360a332031303d310a616c6c
# How many lines: one at a time, none, just all, more, and so many that their sum with the place is 2^32 or more.
pipe 'yes 1 | head -n 15 | pilgodur step selector.netlist 6'
steps '0\n0 2=1\n1\n0 3=1\nall\n' "$(netlist 1 '' '2 3')" 1
for count in 4 5 all 4294967292 4294967294 4294967295 4294967296 18446744073709551616 004; do
    steps "$count 3=1\n" "$(netlist 1 'AND 2 3 OR 4 2' '5 4')" 1
done
# After the last line the pairs are shown again, and no hold has any effect.
steps 'all 16=0\n0\n5 2=0 16=1\nall 8.1=0\n' selector.netlist 3
# The calls end before the lines do.
try step selector.netlist 3
steps '' selector.netlist 3
steps '# nothing\n\n' selector.netlist 3
steps '14\n' selector.netlist 3
steps '2' selector.netlist hex:010001000100
# A rail, a line and the pins of its gate, in time, too early, too late, and in two calls at different values.
steps '2 2=1 3=1 4=1\n4 2=0 4=0 8=1\nall 4=1\n' selector.netlist 0
steps '6 8.1=0 9.2=0\n2 8.1=0 9.2=0\nall 8.1=0 9.2=0\n' selector.netlist 0
steps '7 8=1 8.1=0 8.2=0\n1 8=1 9=0 9.1=1 9.2=1\nall 8=0 9=1 16=0 9.1=0 16.2=1\n' selector.netlist 1
steps '8 008.02=01 9.1=1\nall\n' selector.netlist 2
steps '10 10=0\nall 10=1\n' selector.netlist 6
steps '8 10=0\n1 10=1\nall 10=0\n' selector.netlist 6
# Constants as sources and outputs; odd rails; a lamp.
steps '3\n1\n1\n1\n' "$(netlist 1 'AND 1 2 OR 4 0 OR 1 1' '0 1 5 6')" 1
pipe 'printf "\0\001\0\001\0\001" >3; printf "all 4=1" | pilgodur step selector.netlist @3'
steps '20 11=1\n10\nall 30=0 33.2=1\n' lift-lamp.netlist 5
# Just the holds that counted are those of one run.
pipe 'printf "1000 1384=1 100.1=1\n382 100=1 1383=0\n1 1383=1 1384=1\n100 1384=0 1500=0\nall 1500=1 1500.1=0\n" >widest.calls
    pilgodur step widest.netlist 4095 widest.calls >stepped; grep -c "no effect" stepped; cksum <stepped
    grep "^ *[0-9][0-9]* " stepped >rows; tail -n 8 stepped >>rows
    pilgodur run widest.netlist 4095 1383=0 1384=1 1500=1 100.1=1 1500.1=0 --lines >ran
    { grep "^ *[0-9][0-9]* " ran | tail -n +3; sed -n 2,9p ran; } | cmp - rows'
# Lines that are no calls.
for line in x -1 +1 1.5 10=0 ALL '3 8' '3 8=' '3 8.1' '3 8=0x' '3, 8=0' 'all all' '3 8=0;' '3 8:1=0' '0x3' '3 _' '1e3' '= 8=0'; do
    steps "6\n\n# two\n$line\nall\n" selector.netlist 3
done
steps '6\n3 \000\n' selector.netlist 3
steps '6\n3 \033[31m\n' selector.netlist 3
steps '\357\273\2776\n' selector.netlist 3
pipe '{ printf "6\n1"; head -c 60 /dev/zero | tr "\0" x; } | pilgodur step selector.netlist 3'
pipe '{ printf "6\n1 "; head -c 60 /dev/zero | tr "\0" 0; } | pilgodur step selector.netlist 3'
try step selector.netlist 3 selector.table
# Question 14, in any call, whichever lines it works out.
for holds in 1=0 17=0 8=2 8.3=0 2.1=0 '16=1 14=0' '8.1=0 8=0' '9.1=0 8.2=0' 65544=0 '8=0 16=1 8.1=0 9.2=1 7.1=0' '8=0 8.1=0 9.2=2'; do
    steps "6\n# two\n3 $holds\n" selector.netlist 3
done
steps 'all\n0 17=0\n' selector.netlist 3
steps '5\n0 8.1=0\n' "$(netlist 1 '' '2 3')" 0
# What is wrong before the calls are read.
for operands in "$q11 3" "$q12 3" 'selector.table 3' 'selector.netlist 8' 'selector.netlist contacts:11' 'selector.netlist hex:0001' \
    'selector.netlist hex:000100010002' 'selector.netlist 0x3' 'selector.netlist no-such.rails' 'selector.netlist contacts:x'; do
    steps 'x\n' $operands
done
try step selector.netlist 3 no-such.calls
try step selector.netlist 3 .
try step no-such.netlist 3 no-such.calls
try step selector.netlist 0x3 no-such.calls
pipe 'pilgodur build selector.table | pilgodur step - 3 calls | cksum'
pipe 'printf "\0\001\0\001\0\001" | pilgodur step selector.netlist - calls | tail -n 1'
try step - 3
try step selector.netlist -
try step - 3 -
try step selector.netlist - -
try step selector.netlist
try step selector.netlist 3 calls calls
try step selector.netlist 3 calls --lines
try step selector.netlist 3 calls -o out
pipe 'pilgodur step selector.netlist 3 calls >>calls'
pipe 'pilgodur step selector.netlist @3 calls >>3'
pipe 'pilgodur step selector.netlist 3 - <&-'
judge

transcript probe
try probe selector.table 10=0
try probe selector.table 10=1
try probe selector.table 10=1 --lines
try probe single.table 2=1
try probe lift.table 21=0
try probe widest.table 1383=0
pipe 'pilgodur probe widest.table 1383=0 --lines | cksum'
try probe spare.table 4=1
try probe spare.table 11=0 --lines
for hold in 2=0 2=1 3=0 8=1 9=0 1=0 2=2 13=0; do
    try probe spare.table $hold
done
try probe spare.table 9=1 --lines
try probe $both_spare 5=0
# Pins that show, and pins that are hidden, with the line values at the input 0.
for hold in 8.1=0 8.1=1 8.2=0 8.2=1 9.1=1 10.1=1 10.2=0 15.1=1; do
    try probe selector.table $hold
done
try probe selector.table 8.1=1 --lines
try probe selector.table 8.2=1 --lines
try probe spare.table 10.1=1 --lines
try probe spare.table 12.1=1
try probe lift.table 19.1=1
try probe lift.table 19.2=1
try probe widest.table 1274.1=1
try probe widest.table 1274.1=0
pipe 'pilgodur probe widest.table 1289.1=1 --lines | cksum'
for hold in 1.1=0 2.1=0 7.2=1 17.1=0 8=2 8.1=2 8.2=5 8.0=0 8.3=1 65544.1=0; do
    try probe selector.table $hold
done
try probe spare.table 2.1=1
try probe single.table 4.1=0
try probe $q6 8.1=1
try probe selector.table 17=0
try probe selector.table 65546=0
try probe selector.table 10=256
try probe $q6 2=0
try probe selector.table 10
try probe selector.table 8.1
try probe selector.table 8.1=0 8.2=0
judge

transcript compare
gates='AND 3 5 AND 2 5 OR 8 9 AND 3 4 AND 2 4 AND 10 7 OR 13 11 AND 10 6'
try compare selector.table selector.netlist
try compare selector.netlist "$(netlist 3 "$gates OR 15 12" '16 14')"
try compare widest.table widest.netlist
pipe 'pilgodur build lift.table | pilgodur compare - lift.table'
try compare spare.table spare.netlist
try compare $both_spare "$(netlist 2 '' '0 1 1 0')"
# Another contact is spare; none is; the output is a constant.
try compare $first_spare "$(netlist 2 '' '2 3')"
try compare $first_spare "$(netlist 2 'AND 2 4 OR 3 5' '6 7')"
try compare $first_spare "$(netlist 2 '' '1 0')"
# An OR with its sources exchanged; an AND in its place; the ANDs of each product numbered before its ORs.
try compare selector.table "$(netlist 3 "$gates OR 12 15" '16 14')"
try compare selector.table "$(netlist 3 "$gates AND 15 12" '16 14')"
ands_first=$(netlist 3 'AND 3 5 AND 2 5 AND 3 4 AND 2 4 OR 8 9 AND 12 7 AND 12 6 OR 13 10 OR 14 11' '16 15')
try compare selector.table "$ands_first"
try compare selector.table "$ands_first" --all
# A gate is missing; there is one more; the output's lines are exchanged; there is one more output; other contacts.
try compare selector.netlist "$(netlist 3 "$gates" '15 14')"
try compare "$(netlist 3 "$gates" '15 14')" selector.table
try compare selector.table "$(netlist 3 "$gates OR 15 12 AND 2 3" '16 14')"
try compare selector.table "$(netlist 3 "$gates OR 15 12" '14 16')"
try compare selector.table "$(netlist 3 "$gates OR 15 12" '16 14 2 3')"
try compare selector.table lift.table
try compare single.table "$(netlist 2 '' '2 3')"
# The permits of the second output alone, and the false rail alone.
try compare "$(netlist 2 '' '2 3 4 5')" "$(netlist 2 '' '2 3 5 4')"
try compare "$(netlist 2 '' '2 3')" "$(netlist 2 '' '2 5')"
# Lamps: alike; missing on either side; their lines exchanged; a gate of a join exchanged; with other outputs; with other contacts; alone.
try compare lift.table lift-lamp.netlist --lamp
try compare --lamp widest-lamp.netlist widest.table
try compare --lamp lift.table lift.table
try compare lift.table lift-lamp.netlist
try compare lift-lamp.netlist lift.table
spare_gates='AND 4 7 OR 5 10 AND 4 6'
join='AND 12 6 AND 11 7 OR 13 14 AND 12 7 AND 11 6 OR 16 17'
try compare spare.table "$(netlist 4 "$spare_gates $join" '12 11 6 7' '15 18')" --lamp
try compare spare.table "$(netlist 4 "$spare_gates $join" '12 11 6 7' '18 15')" --lamp
try compare spare.table "$(netlist 4 "$spare_gates AND 6 12 AND 11 7 OR 13 14 AND 12 7 AND 11 6 OR 16 17" '12 11 6 7' '15 18')" --lamp
try compare spare.table "$(netlist 4 "$spare_gates $join" '12 11 6 7' '15 15')" --lamp
try compare single.table "$(netlist 1 '' '2 3 2 3' '2 3')" --lamp
try compare single.table "$(netlist 2 '' '2 3' '2 3')"
try compare single.table "$(netlist 1 '' '2 3' '2 3')"
try compare single.table "$(netlist 1 '' '2 3' '3 2')" --lamp
try compare selector.table $q6
try compare $q12 selector.table
try compare selector.table no-such.table
try compare selector.table
judge

transcript dictionary
try dictionary selector.table
try dictionary single.table
try dictionary spare.table
try dictionary $both_spare
pipe '(ulimit -t 1; pilgodur dictionary widest.table) | cksum' # in a second of processor time
try dictionary lift.table -o lift.csv
pipe 'head -n 3 lift.csv; wc -l <lift.csv'
# With pins: after the rows of the lines, which stay as they are.
try dictionary --pins selector.table
try dictionary spare.table --pins
try dictionary single.table --pins
try dictionary $both_spare --pins
try dictionary lift.table --pins -o pins.csv
pipe 'head -n 41 pins.csv | cmp - lift.csv; sed "1,41d" pins.csv'
pipe '(ulimit -t 2; pilgodur dictionary widest.table --pins) >pins.csv; cksum <pins.csv; grep -n hidden pins.csv; tail -n 4 pins.csv'
try dictionary $q6 --pins
try dictionary $q6
try dictionary selector.netlist
judge

transcript export
# Constants as sources and outputs, a rail as an output, and a gate that has one source twice.
constants=$(netlist 2 'AND 1 2 OR 0 4 AND 5 5 OR 6 6' '0 1 8 3')
for format in --blif --verilog --dot; do
    try export selector.table $format
    try export single.table $format
    try export "$constants" $format
    try export spare.table $format
    try export $only_spare $format
done
# With the lamp: of one output, of constants, of three outputs; constants that the lamp alone reads.
for format in --blif --verilog --dot; do
    try export single.table --lamp $format
    try export $both_spare $format --lamp
    try export lift-lamp.netlist $format
    try export "$(netlist 1 '' '2 3' '0 1')" $format
done
pipe 'pilgodur export lift-lamp.netlist --dot >lift.dot; pilgodur export lift.table --lamp --dot | cmp - lift.dot'
try export selector.netlist --blif -o selector.blif
pipe 'pilgodur export selector.table --blif | cmp - selector.blif'
try export selector.table
try export selector.table --blif --dot
try export $q6 --blif
try export $q11 --blif
judge

# noted FILE NOTE: the hex: text of a file with this note, in hex digits, before each field and after the last.
noted() {
    od -An -v -tx1 "$1" | tr -d ' \n' | awk -v note="$2" '
        function number(digits, sum) {
            for (i = 1; i <= 4; i++)
                sum = 16 * sum + index("0123456789abcdef", substr(digits, i, 1)) - 1
            return sum
        }
        {
            for (at = 1; at <= length($0); at += size) {
                size = 2 * (3 + number(substr($0, at + 2, 4)))
                text = text note substr($0, at, size)
            }
            print "hex:" text note
        }'
}
# raw HEX: the bytes of hex: text.
raw() {
    # shellcheck disable=SC2059
    printf "$(echo "${1#hex:}" | awk '{
        for (at = 1; at < length($0); at += 2)
            printf "\\%03o", 16 * index("123456789abcdef", substr($0, at, 1)) + index("123456789abcdef", substr($0, at + 1, 1))
    }')"
}
# every_byte: a note of all bytes.
every_byte() {
    awk 'BEGIN { printf "hex:ff0100"; for (i = 0; i < 256; i++) printf "%02x", i }'
}

transcript notes
try notes selector.table
try notes selector.netlist
try notes hex:
try notes "$selector_drawing"
try notes hex:8000044f722037
try notes hex:010001010200010003000200018000044f722037
try notes hex:800000ff00012281000220200100010104000005000400020003c000025c6e
pipe 'noted selector.table 900005440d0a2037 >noted.table; pilgodur notes noted.table'
pipe 'every_byte | pilgodur notes -'
pipe 'every_byte >every.hex; pilgodur notes @every.hex | LC_ALL=C tr -d "\n -~" | wc -c'
# The highest tag that is no note's; bytes that only look like a note, within a field.
try notes hex:0100017f7f0000800001617f0000
try notes hex:010003800000
# Not whole: a note of one byte, of two, without its value, a byte short, with a length past the end; a field of another kind.
for rest in 80 8000 800001 8000040102 80ffff00; do
    try notes "hex:01000103$rest"
done
try notes $q1
try notes hex:800001610100
pipe '{ cat selector.netlist; printf "\200\000\003ab"; } >cut.netlist; pilgodur notes cut.netlist'
try notes "$selector_rules"
try notes gallery.drawing
try notes gallery.rules
pipe 'echo contacts | pilgodur notes -'
try notes no-such.table
try notes
try notes selector.table -o out
# Every other command sees a file without its notes: these stand before each field and after the last, and look like fields.
note=80000701000104040000
pipe 'noted selector.table $note >noted.table; noted selector.netlist $note >noted.netlist; noted lift-lamp.netlist $note >noted-lamp.netlist'
pipe 'noted spare.table ff0000 >noted-spare.table; noted widest.netlist fe0003040000 >noted-widest.netlist'
pipe '{ printf "\200\000\003a\nb"; cat selector.netlist; } >first.netlist; pilgodur notes first.netlist'
pipe '{ printf "\200\000\004hex:"; cat selector.table; } >first.table; pilgodur notes first.table'
try check noted.table
try check noted-spare.table
try check first.table
pipe 'pilgodur build noted.table -o - | cmp - selector.netlist'
pipe 'pilgodur build first.table -o - | cmp - selector.netlist'
for file in noted.table noted.netlist first.netlist first.table; do
    pipe "pilgodur list $file | cmp - \"\$root/tests/expected/sheet.txt\""
done
pipe 'pilgodur list noted-lamp.netlist | cmp - lift.sheet'
pipe 'pilgodur list noted-widest.netlist | cksum'
try compare noted.table noted.netlist
try compare first.netlist selector.table
try compare noted-lamp.netlist lift.table --lamp
try compare noted-widest.netlist widest.table
try read-off noted.table 3
try run noted.netlist 6 10=0
try run first.netlist contacts:110
try run noted-lamp.netlist 5 30=0
pipe 'pilgodur run noted-widest.netlist 4095 1383=0 1384=1 --lines | cksum'
try run noted.netlist 8
try probe noted.table 10=1
try probe noted-spare.table 2=0
pipe 'pilgodur dictionary noted.table --pins >noted.csv; pilgodur dictionary selector.table --pins | cmp - noted.csv'
try probe noted.table 9.1=1
try run noted.netlist 2 8.2=1
pipe 'printf "9 10=0\n8\n" | pilgodur step noted.netlist 6'
for format in --blif --verilog --dot; do
    pipe "pilgodur export noted-lamp.netlist $format >noted.out; pilgodur export lift.table --lamp $format | cmp - noted.out"
    pipe "pilgodur export noted.table $format >noted.out; pilgodur export selector.table $format | cmp - noted.out"
done
pipe 'raw "$selector_drawing" >selector.bytes; noted selector.bytes $note >noted.drawing; pilgodur notes noted.drawing'
pipe 'pilgodur draw noted.drawing -o - | cmp - selector.table'
pipe '{ printf "\377\000\001a"; cat selector.bytes; } | pilgodur draw -o - - | cmp - selector.table'
pipe 'raw "$selector_rules" >selector.bytes; noted selector.bytes $note >noted.rules; pilgodur notes noted.rules | wc -l'
pipe 'pilgodur rules noted.rules -o - | cmp - selector.table'
pipe '{ printf "\377\000\001a"; cat selector.bytes; } | pilgodur rules -o - - | cmp - selector.table'
# Text has no notes: within it the second line looks like the value of one.
pipe 'printf "#\000\001 \200\000\ncontacts 1\noutputs a\na 0 0 1\n" | pilgodur draw -'
# Rails are no file with notes.
try run selector.netlist hex:800000000100010001
# With a note that is cut short each file gets its own number, wherever the note stands.
for cut in 80 80ffff 8000040102; do
    try list "hex:0100010102000100030002000180000161$cut"
    try list "hex:800000010001018100000400000500040002000380000161$cut"
    try run "hex:80000001000101040000050004000200038000$cut" 0
    try draw "hex:010001010200010080000007000080000161$cut"
    try rules "hex:0100010108000101800000090002020180000161$cut"
    try rules "hex:0100010108000101$cut"
done
try list hex:800010010001010400000500040002000380
try draw hex:800010010001010200010007000080
try draw hex:efbbbf
try draw hex:01000101020001000700007f0000
try list hex:010001017f0000040000050004000200037f0000
# Several notes in a row; a netlist that is cut short within its gates, and one within a note before them; a cut note behind a whole one.
try list hex:800000810001618000000100010180000081000004000080000080000005000400020003800000800000
try draw hex:800000810001610100010180000080000002000100ff0000800000070000800000800000
try list hex:010001030400050000
try list hex:01000103800000040005
try list hex:0100010380000104
try draw hex:800000efbbbf
# build --note: the note is the last field, with the lamp and without; an empty one; several; the longest; one that is too long.
try build selector.table --note 'AB-17, sheet 3'
try build single.table --note=x --lamp
try build --note '' single.table
try build single.table --note one --not two --note ''
try build noted.table --note 'hex: \\ "new" ' -o noted.netlist
pipe 'head -c 59 noted.netlist | cmp - selector.netlist'
try notes noted.netlist
try compare noted.netlist selector.table
try build lift.table --lamp --note "$(printf 'zwei\nZeilen, \303\274')" -o noted.netlist
try notes noted.netlist
try list noted.netlist --lamp
pipe 'pilgodur build single.table --note "$(head -c 65535 /dev/zero | tr "\0" x)" -o long.netlist; cksum <long.netlist'
pipe 'pilgodur list long.netlist'
pipe 'pilgodur notes long.netlist | wc -c'
pipe 'pilgodur build single.table --note "$(head -c 65536 /dev/zero | tr "\0" x)" -o long.netlist'
pipe 'cksum <long.netlist'
try build $q6 --note x
try build selector.table --note
try build --note selector.table
for command in 'draw gallery.drawing' 'check single.table' 'list single.table' 'compare single.table single.table' \
    'read-off single.table 0' 'run selector.netlist 3' 'step selector.netlist 3' 'probe single.table 2=1' 'dictionary single.table' \
    'export single.table --dot' 'notes single.table'; do
    # shellcheck disable=SC2086
    try $command --note x
done
judge

transcript usage
try --help
pipe 'pilgodur --help >help; pilgodur -h | cmp - help'
try --version
try check -V
try
try mend selector.table
try read-off selector.table
try check selector.table lift.table
try check selector.table --lines
try check selector.table -o out
try list selector.table --all
try list selector.table --blif
try check selector.table --lamp
try run selector.netlist 3 --lamp
try probe selector.table 10=0 --lamp
try dictionary selector.table --lamp
try check selector.table --pins
try probe selector.table 8.1=0 --pins
try run selector.netlist 3 8.1=0 --pins
try dictionary selector.table --pins=1
pipe 'pilgodur --pin dictionary single.table | cksum'
try build selector.table --lamp=1
try run selector.netlist 3 --l
try build single.table --la
try list selector.table --mend
try list selector.table -x
try list -xV selector.table
try run --lines -xV
try list selector.table --lines=3
try list selector.table --help=3
try list selector.table --ver
try build selector.table -o
try build selector.table --output
try build selector.table -o one -o two
pipe 'pilgodur -o - build single.table | cksum'
pipe 'pilgodur build -o- single.table | cksum'
pipe 'pilgodur build --output=- single.table | cksum'
try --lines run selector.netlist 3
cp selector.table ./-x
try check -x
try check -- -x
try -- check -x
try check ./-x
try run selector.netlist -1
try compare - -
try run - -
pipe 'POSIXLY_CORRECT=1 "$bench" build single.table -o - | cksum'
try check no-such.table
pipe 'head -c 16777217 /dev/zero | pilgodur check -'
pipe 'head -c 16777216 /dev/zero | pilgodur check -'
try check .
try check ''
pipe 'pilgodur check - <&-'
judge

transcript full
[ -w /dev/full ] || echo "there is no /dev/full; the next transcript cannot be as expected"
pipe 'pilgodur check selector.table >/dev/full'
pipe 'pilgodur --help >/dev/full'
pipe 'pilgodur list widest.table >/dev/full'
pipe 'pilgodur check selector.table >&-'
pipe 'pilgodur step selector.netlist 3 calls >/dev/full'
judge

echo "bench: $commands commands, $failures transcripts differ"
[ "$failures" -eq 0 ]
