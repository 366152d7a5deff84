#!/bin/sh
# A dictionary shows how far it has come on a terminal and leaves nothing of it; step asks a terminal for its calls, and once more after
# a wrong line; other commands show nothing.
#
#     tests/terminal_test.sh TERMINAL BENCH
set -u

if [ $# -ne 2 ]; then
    echo "usage: tests/terminal_test.sh TERMINAL BENCH" >&2
    exit 2
fi
examples=$(cd "$(dirname "$0")/../examples" && pwd) || exit 2
failures=0

# shows PATTERN COMMAND...: what the terminal got fits a pattern of the shell.
shows() {
    pattern=$1
    shift
    # shellcheck disable=SC2254
    case $("$terminal" "$bench" "$@") in
    $pattern) ;;
    *)
        echo "FAILED on a terminal: $*"
        failures=$((failures + 1))
        ;;
    esac
}
terminal=$(realpath "$1") && bench=$(realpath "$2") || exit 2
blank='                        '
pins_blank="$blank        "
# A board of 101 lines: the last is the first that is shown.
last=hex:01000107020002000103000400010200030006000101000102030006000101010100030004000100020300060001000001000300040001000003000400010100
shows "*^Mline 100 of 1814^Mline 200 of 1814*^Mline 1800 of 1814^M$blank^M" dictionary "$examples/widest.table"
shows "*^Mline 1800 of 1814^M$blank^M^Mpins of line 100 of 1814*^Mpins of line 1800 of 1814^M$pins_blank^M" \
    dictionary "$examples/widest.table" --pins
shows "^Mline 100 of 101^M$blank^M" dictionary $last
shows "^Mline 100 of 101^M$blank^M^Mpins of line 100 of 101^M$pins_blank^M" dictionary $last --pins
shows '' dictionary "$examples/selector.table" --pins
shows '' dictionary "$examples/selector.table"
shows '' list "$examples/widest.table"
shows 'pilgodur: hex:: refused, number 2: *' dictionary hex:

# asked TYPED EXPECTED ARGUMENT...: what comes on a terminal, on which this is typed, line for line.
asked() {
    typed=$(printf "$1.") expected=$2
    shift 2
    said=$(cd "$examples" && "$terminal" -t "${typed%.}" "$bench" "$@")
    status=$?
    said=$(printf '%s' "$said" | sed 's/\^J/\n/g')
    if [ "$said
[$status]" != "$expected" ]; then
        echo "FAILED on a terminal: $*: $said [$status]"
        failures=$((failures + 1))
    fi
}
rails='call 1: place 8, lines left 9
  line  value
     2      1
     3      0
     4      1
     5      0
     6      0
     7      1'
no_hold='8: not a hold; write LINE=VALUE, as in 10=0, or LINE.PIN=VALUE, as in 8.1=0'
question14=$("$bench" run "$examples/selector.netlist" 3 1=0 2>&1 | sed 's/.*: refused/refused/')
# Answers come before the next line is asked for; blank lines and wrong ones change nothing; nothing is asked once all is worked out.
asked '6\n\n# none\n3 8\n3 10=1 8=1\n3 10=1\nx\nall 8=1\nall\n\004' "input 3, contacts:110
place 2, lines left 15: $rails
place 8, lines left 9: place 8, lines left 9: place 8, lines left 9: pilgodur: standard input: line 4: $no_hold
place 8, lines left 9: pilgodur: standard input: line 5: selector.netlist with hold 8=1: $question14
place 8, lines left 9: call 2: place 11, lines left 6
  line  value
     8      0
     9      0
    10      1  held
place 11, lines left 6: pilgodur: standard input: line 7: x: not a count; write a number, or all
place 11, lines left 6: call 3: place 17, lines left 0
  line  value
    11      0
    12      1
    13      1
    14      1
    15      0
    16      1
8=1 has no effect: line 8 was worked out before
output 0: 11 no code, both high
[0]" step selector.netlist 3
# The end of what is typed, also after a line without its end.
asked '6\n\004' "input 3, contacts:110
place 2, lines left 15: $rails
place 8, lines left 9: 
the calls end before line 8: no pairs
[0]" step selector.netlist 3 -
asked '6\004\004\004' "input 3, contacts:110
place 2, lines left 15: $rails
place 8, lines left 9: 
the calls end before line 8: no pairs
[0]" step selector.netlist 3
# A file of calls is not asked for, and what is wrong before the calls is told before the first is asked for.
asked 'all\n\004' "input 3, contacts:110
$rails
the calls end before line 8: no pairs
[0]" step selector.netlist 3 hex:36
asked 'all\n\004' "pilgodur: selector.netlist with rails hex:00: refused, number 13: Are there 2n rail bytes, in line order, each 0 or 1? No.
[1]" step selector.netlist hex:00
asked 'all\n\004' "pilgodur: step: - is given, but standard input has the calls; name a file of calls
[2]" step - 3
# The prompts and what is wrong come on standard error, the answers on standard output.
said=$(cd "$examples" && "$terminal" -t '0
x
all
' sh -c '"$0" step selector.netlist 3 | tail -n 1 | cksum' "$bench")
case $said in
"place 2, lines left 15: place 2, lines left 15: pilgodur: standard input: line 2: x: not a count; "*"$(echo 'output 0: 10 yes' | cksum)"*) ;;
*)
    echo "FAILED on a terminal with another standard output: $said"
    failures=$((failures + 1))
    ;;
esac

echo "terminal: $failures failures"
[ "$failures" -eq 0 ]
