#!/bin/sh
# Exports the examples and random netlists in every form, reads each export back and runs it against the library. Where yosys, abc
# and dot are installed they read them, too, and yosys proves that the BLIF and the Verilog of a board are the same.
#
#     tests/exports_test.sh BENCH READBACK NETLISTS [RESULTS]
#
# RESULTS, build/exports if it is left out, is emptied and gets the exports.
. "$(dirname "$0")/start.sh"

if [ $# -lt 3 ]; then
    echo "usage: tests/exports_test.sh BENCH READBACK NETLISTS [RESULTS]" >&2
    exit 2
fi
bench=$(realpath "$1") && readback=$(realpath "$2") && netlists=$(realpath "$3") || exit 2
enter "${4:-$root/build/exports}"

exports=0

# read_elsewhere NAME: the board's exports in other tools, which take too long for the largest.
read_elsewhere() {
    [ "$(wc -c <"$1.netlist")" -le 1000 ] || return 0
    if command -v yosys >/dev/null; then
        yosys -q -p "read_verilog $1.verilog; rename permit_board in_verilog; read_blif $1.blif
            miter -equiv -flatten in_verilog permit_board both; sat -verify -prove trigger 0 both" >yosys.log 2>&1 ||
            complain "yosys: $1"
    fi
    abc=$(command -v abc || command -v berkeley-abc)
    if [ -n "$abc" ]; then
        "$abc" -q "read_blif $1.blif; strash; print_stats" >abc.log 2>&1 && ! grep -qi 'error\|fail' abc.log || complain "abc: $1"
    fi
    if command -v dot >/dev/null; then
        dot -Tcanon "$1.dot" >dot.log 2>&1 || complain "dot: $1"
    fi
}

# Each board without the lamp and with it. The last of them: contacts that are all spare, and constant outputs.
cp "$root"/examples/*.table .
printf '\001\000\001\002\002\000\002\000\001\003\000\004\000\000\001\001\003\000\004\000\000\001\001' >constant.table
for board in selector single lift widest spare constant; do
    "$bench" build $board.table -o $board.netlist || complain "build $board"
    "$bench" build $board.table --lamp -o $board-lamp.netlist || complain "build $board --lamp"
done
# A lamp that is the only one to read the constants.
printf '\001\000\001\001\004\000\000\005\000\004\000\002\000\003\006\000\004\000\000\000\001' >constant-reader.netlist
# Every constant and rail as a source and as an output, and gates that have one source twice.
"$bench" list hex:0100010204001400000100020100000004000005000501000600060500080000000100080003 >/dev/null || complain "constants"
printf '\001\000\001\002\004\000\024\000\000\001\000\002\001\000\000\000\004\000\000\005\000\005\001\000\006\000\006' >constants.netlist
printf '\005\000\010\000\000\000\001\000\010\000\003' >>constants.netlist
for seed in 1 2 3 4 5 6 7 8 45; do # the last has 10,602 gates; 6 and 45 have no lamp
    "$netlists" $seed >random$seed.netlist
done
"$netlists" 9 12 10602 8 lamp >random9.netlist

for netlist in *.netlist; do
    name=${netlist%.netlist} table=${netlist%.netlist}.table lamp=
    case $name in *-lamp) table=${name%-lamp}.table lamp=--lamp ;; esac
    for form in blif verilog dot; do
        exports=$((exports + 1))
        "$bench" export $netlist --$form -o "$name.$form" || complain "export $netlist --$form"
        "$readback" $form "$name.$form" $netlist || complain "$name.$form"
        [ ! -e "$table" ] || "$bench" export "$table" --$form $lamp | cmp - "$name.$form" || complain "export $table --$form $lamp"
    done
    read_elsewhere "$name"
done

# A reader that accepts anything would prove nothing: exports of another board are refused, and those with the lamp of one without it.
for form in blif verilog dot; do
    for spoilt in 's/l10/l9/' 's/and\b/or/;s/AND/OR/;s/^11 1/1- 1/' 's/output0_true/output0_false/' '$d'; do
        sed "$spoilt" selector.$form >spoilt
        "$readback" $form spoilt selector.netlist >/dev/null && complain "the reader accepts $form after $spoilt"
    done
    for spoilt in 's/lamp_true/lamp_false/' '/lamp_true/d' 's/l30\b/l33/' 's/lamp/output3/;s/lamp/output3/'; do
        sed "$spoilt" lift-lamp.$form >spoilt
        "$readback" $form spoilt lift-lamp.netlist >/dev/null && complain "the reader accepts $form after $spoilt"
    done
    "$readback" $form lift.$form lift-lamp.netlist >/dev/null && complain "the reader misses no lamp in $form"
    "$readback" $form selector-lamp.$form selector.netlist >/dev/null && complain "the reader accepts a lamp in $form"
done

echo "exports: $exports, $failures failed"
[ "$failures" -eq 0 ]
