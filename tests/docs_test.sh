#!/bin/sh
# The header, the program, README and docs/RULES.md say the same: the questions behind the refusals, the version, the examples, the
# commands, the worked boards, the worked steps, the worked drawing and the worked rule sheet.
#
#     tests/docs_test.sh BENCH QUESTIONS [RESULTS]
#
# QUESTIONS prints the header's questions (tests/questions.c). RESULTS, build/docs_test if it is left out, is emptied.
. "$(dirname "$0")/start.sh"

if [ $# -lt 2 ]; then
    echo "usage: tests/docs_test.sh BENCH QUESTIONS [RESULTS]" >&2
    exit 2
fi
bench=$(realpath "$1") && questions=$(realpath "$2") || exit 2
enter "${3:-$root/build/docs_test}"

# same WHAT FILE FILE
same() {
    diff -u "$2" "$3" || complain "$1"
}

"$questions" >header || failures=$((failures + 1))
sed -n '/^| number | no to |$/,/^$/p' "$root/README.md" | sed -n '/^| [0-9]/p' >readme
same "README's questions are the header's" header readme

# refused COMMAND...: the question by which the program refuses, as a row of the table.
refused() {
    "$bench" "$@" 2>&1 >/dev/null | sed -n 's/.*: refused, number \([0-9]*\): \(.*\) No\.$/| \1 | \2 |/p' >>program
}
selector=$root/examples/selector
refused check hex:0100010102000100030003
refused check hex:
refused check hex:01000101020000
refused check hex:0100010102000100
refused check hex:01000101020001000300020002
refused check hex:0100010202000100030002000103000400010001
refused check hex:0100010202000100030002010003000400010100
refused read-off "$selector.table" 8
refused run "$selector.table" 0
refused run hex:01000101040005020002000305000400040003 0
refused run "$selector.netlist" hex:00
refused probe "$selector.table" 17=0
refused probe "$root/examples/spare.table" 2=0
refused draw hex:
printf 'contacts 3\noutputs %s\n' "$(seq -s ' ' 20 24)" >wide.drawing
printf '%s\n' '20 0 10 11' '21 0 12 13' '22 0 14 15' '23 0 16 17' '24 0 18 0' '10 1 2 0' '11 1 2 1' '12 1 0 2' '13 1 1 2' \
    '14 1 3 0' '15 1 3 1' '16 1 0 3' '17 1 1 3' '18 1 2 3' '2 2 0 1' '3 2 1 0' >>wide.drawing
refused draw wide.drawing
refused rules hex:
refused rules hex:010001010800010109000202000900020201
refused rules hex:01000101080001010900020100
sed '/^| 9 /d; /^| 21 /d' header >asked # the program lends buffers that are long enough, and goes on where a step ended
same "the program's questions are the header's" asked program

sed -n 's/^#define PILGODUR_VERSION "\(.*\)"$/pilgodur \1/p' "$root/include/pilgodur.h" >version
"$bench" --version >said
same "the version" version said

sed -n '/^```c$/,/^```$/p' "$root/README.md" | sed '/^```/d' >example
same "README's example is tests/example.c" "$root/tests/example.c" example

cp "$selector.table" "$selector.netlist" "$root/examples/spare.table" .
echo 'hex:0100010304002d0000030005000002000500000300040000020004010008000900000c000700000c000601000d000a01000e000b0500040010000f' >theirs.netlist
# shown BEGINNING: README's block whose first command begins like this shows what its commands say.
shown() {
    sed -n "/^    \\$ pilgodur $1/,/^\$/p" "$root/README.md" | sed '$d; s/^    //' >page
    [ -s page ] || complain "README has no example of $1"
    sed -n 's/^\$ pilgodur //p' page >commands
    while read -r command; do
        echo "\$ pilgodur $command"
        eval "\"\$bench\" $command"
    done <commands >said
    same "README's example of $1" said page
}
shown 'compare'
shown 'list'
shown 'build --lamp'
shown 'build selector.table --note'
shown 'probe'
sed -n '/^    \$ cat selector.calls/,/^    \$ pilgodur step/p' "$root/README.md" | sed '1d; $d; s/^    //' >selector.calls
shown 'step selector.netlist'

sed -n '/^    \$ cat both.drawing/,/^    \$ pilgodur draw/p' "$root/README.md" | sed '1d; $d; s/^    //' >both.drawing
sed -n '/^    \$ pilgodur draw both.drawing/,/^$/p' "$root/README.md" | sed '1d; $d; s/^    //' >drawn
"$bench" draw both.drawing >said
same "README's example of draw" said drawn

sed -n '/^    \$ cat both.rules/,/^    \$ pilgodur rules/p' "$root/README.md" | sed '1d; $d; s/^    //' >both.rules
sed -n '/^    \$ pilgodur rules both.rules/,/^$/p' "$root/README.md" | sed '1d; $d; s/^    //' >ruled
"$bench" rules both.rules >said
same "README's example of rules" said ruled
same "README's examples of draw and rules have one table" drawn ruled

"$bench" --help | sed -n 's/^  \([a-z][a-z-]*\) .*/\1/p' >commands
while read -r command; do
    grep -q "^| \`$command " "$root/README.md" || complain "README has no row for $command"
done <commands
[ "$(wc -l <commands)" -ge 13 ] || failures=$((failures + 1))

# The worked boards of docs/RULES.md. A table stands in the first block of a section, with words behind its bytes.
section() {
    sed -n "/^## $1/,/^## /p" "$root/docs/RULES.md"
}
bytes() {
    sed -n 's/^     *\(\([0-9a-f][0-9a-f]  *\)*[0-9a-f][0-9a-f]\)\(  .*\)*$/\1/p' | tr -d ' \n'
}
# The gates of a text as rows, and those that the program lists.
gates() {
    grep -o '[0-9][0-9]* *=* *\(AND\|OR\) [0-9][0-9]* [0-9][0-9]*' | tr -d '=' | tr -s ' '
}
listed() {
    "$bench" list "hex:$1" ${2-} | sed -n 's/^ *\([0-9]*\) *\(AND\|OR\) *\([0-9]*\) *\([0-9]*\)$/\1 \2 \3 \4/p'
}
# table_of SECTION WORD: takes the table that stands in a section before a word.
table_of() {
    section "$1" | sed "/$2/,\$d" | bytes >table
}
# same_netlist SECTION [--lamp], same_gates SECTION [--lamp]: what the section says of its table's netlist is what the program builds.
same_netlist() {
    section "$1" | sed '1,/netlist file/d' | bytes | sed 's/^/hex:/; s/$/\n/' >page
    "$bench" build "hex:$(cat table)" ${2-} >said
    same "the netlist under '$1' in docs/RULES.md" said page
}
same_gates() {
    section "$1" | gates >page
    listed "$(cat table)" ${2-} >said
    same "the gates under '$1' in docs/RULES.md" said page
}
table_of 'The selector' 'Rails:'
same_netlist 'The selector'
same_gates 'The selector'
section 'The selector' | sed '1,/^Its sheet/d' | sed -n 's/^    //p' >page
"$bench" list "hex:$(cat table)" >said
same "the selector's sheet in docs/RULES.md" said page

# The holds on the selector: each row is what the program says of that hold, with the values of the gates' lines.
section 'Stuck lines' | sed -n 's/^| `\([0-9a-f ]*\)` | \(.*\) |$/\1 | \2/p' >page
sed 's/ |.*//' page | while read -r high low byte; do
    line=$((256 * 0x$high + 0x$low)) site=$((0x$byte / 2)) value=$((0x$byte % 2)) pin='' of=''
    [ $site -eq 0 ] || pin=.$site of=$([ $site -eq 1 ] && echo 'first pin of ' || echo 'second pin of ')
    "$bench" probe selector.table "$line$pin=$value" --lines | awk -v hold="$high $low $byte | ${of}line $line at $value" '
        / is hidden: / { input = output = 0; way = 2 }
        / shows at input / { input = $0; sub(/.* input /, "", input) }
        /^output / { output = $2; way = substr($3, 1, 1) }
        $1 >= 8 && $2 ~ /^[01]$/ { values = values " " $2 }
        END { print hold " | " input + 0 " | " output + 0 " | " way " |" values }'
done >said
same "what docs/RULES.md says of holds on the selector" said page
[ "$(wc -l <page)" -eq 8 ] || complain "docs/RULES.md has other holds on the selector"

# The selector in steps: each row is a call, and what the program shows of it. The sentences behind it: one run with the hold that counted.
section 'A run of the selector in steps' >steps
sed -n 's/^| \([0-9]* | [0-9]* | [^|]* | [01 ]* | [0-9]*\) |$/\1/p' steps >page
sed 's/`//g; s/none//' page | while IFS='|' read -r place count holds rest; do
    echo "$holds" | tr -s ' ' '\n' | sed '/^$/d' | paste -d ' ' - - - | while read -r high low byte; do
        echo "$((256 * 0x$high + 0x$low))=$((0x$byte))"
    done | xargs echo $count
done >calls
"$bench" step selector.netlist 3 calls >stepped
awk '
    FNR == NR { count[NR] = $3; holds[NR] = $0; sub(/^[^|]*\|[^|]*\| /, "", holds[NR]); sub(/ \|.*/, "", holds[NR]); next }
    /^call / { if (call++) print row(); place = out; out = $4 + 0; values = "" }
    $1 ~ /^[0-9]+$/ && $2 ~ /^[01]$/ { values = values $2 " " }
    function row() { return (call == 2 ? 2 : place) " | " count[call - 1] " | " holds[call - 1] " | " values "| " out }
    END { call++; print row() }' page stepped >said
same "the steps of the selector in docs/RULES.md" said page
[ "$(wc -l <page)" -eq 3 ] || complain "docs/RULES.md has other steps of the selector"
grep -q '^ *10 *1  held$' stepped && grep -q '^16=0 has no effect: .* later$' stepped && grep -q '^8=1 has no effect: .* before$' stepped &&
    [ "$(grep -c 'no effect' stepped)" -eq 2 ] || complain "the holds in the steps of docs/RULES.md have another effect"
"$bench" run selector.netlist 3 10=1 --lines | grep '^ *[0-9]* *[01]' | tail -n +3 >said
grep '^ *[0-9]* *[01]\( \|$\)' stepped >page
same "the steps of the selector in docs/RULES.md and one run" said page
tail -n 1 stepped | grep -q '^output 0: 11 ' && "$bench" run selector.netlist 3 | grep -q '^output 0: 10 ' ||
    complain "the pairs in the steps of docs/RULES.md"

# The selector's table with a note is answered like the table without it; what the page says of other bytes in the note.
section 'Notes' | bytes >noted
od -An -v -tx1 selector.table | tr -d ' \n' >page
sed 's/80000444522d37//' noted >said
same "the table with a note in docs/RULES.md, without it" said page
[ "$(wc -c <noted)" -eq 72 ] || complain "the table with a note in docs/RULES.md has another count of bytes"
for command in check build list; do
    "$bench" $command "hex:$(cat noted)" >said
    "$bench" $command selector.table >page
    same "$command of the table with a note in docs/RULES.md" said page
done
"$bench" notes "hex:$(cat noted)" >said
echo 'note 0: byte 13, tag 128, length 4, "DR-7"' >page
same "the note in docs/RULES.md" said page
: >program
for edit in 's/800004/800014/' 's/800004/800015/' 's/800004/7f0004/'; do
    refused check "hex:$(sed $edit noted)"
done
section 'Notes' | sed '1,/^It is answered/d' | tr '\n' ' ' | grep -o '\(: it is refused with\|:\) [0-9]*[.;]' | grep -o '[0-9]*' >page
sed 's/^| \([0-9]*\).*/\1/' program >said
same "what docs/RULES.md says of other notes" said page

table_of 'A second board' 'matrices'
same_gates 'A second board'
[ "$(wc -l <page)" -eq 42 ] || failures=$((failures + 1))
table_of 'A third board' 'matrices'
same_netlist 'A third board'
same_gates 'A third board'
table_of 'A fourth board' 'matrices'
same_netlist 'A fourth board' --lamp
same_gates 'A fourth board' --lamp
[ "$(wc -l <page)" -eq 15 ] || complain "the fourth board in docs/RULES.md has another count of gates"
section 'A fourth board' | sed '1,/^Its sheet/d' | sed -n 's/^    //p' >page
"$bench" list "hex:$(cat table)" --lamp | tail -n 3 >said
same "the fourth board's rows in docs/RULES.md" said page

# The worked drawing: its text is that of examples/, and its text and its bytes have the page's table.
section 'A drawing' | sed -n '/Its text, /,/^Its bytes/p' | sed '1,2d; $d' | sed '$d; s/^    //' >text
same "the drawing in docs/RULES.md is examples/gallery.drawing" "$root/examples/gallery.drawing" text
section 'A drawing' | sed '1,/^Its bytes/d; /^The functions/,$d' | bytes >drawing
section 'A drawing' | sed '1,/The table, /d' | bytes | sed 's/^/hex:/; s/$/\n/' >page
[ "$(wc -c <drawing)" -eq 96 ] || complain "the drawing in docs/RULES.md has another count of bytes"
for given in text "hex:$(cat drawing)"; do
    "$bench" draw "$given" >said
    same "the table of the drawing in docs/RULES.md" said page
done
"$bench" draw text | "$bench" check - | sed -n 's/^gates \(.*\)/\1/p; s/^depth \(.*\)/\1/p' | xargs printf 'Its netlist has %s gates and depth %s.\n' >said
section 'A drawing' | grep '^Its netlist' >page
same "the netlist of the drawing in docs/RULES.md" said page

# The worked rule sheet: its text is that of examples/, its text and its bytes have the drawing's table, and three edits of it are refused as
# the page says.
section 'A rule sheet' | sed -n '/Their text, /,/^Their bytes/p' | sed '1,2d; $d' | sed '$d; s/^    //' >text
same "the rule sheet in docs/RULES.md is examples/gallery.rules" "$root/examples/gallery.rules" text
section 'A rule sheet' | sed '1,/^Their bytes/d' | bytes >sheet
[ "$(wc -c <sheet)" -eq 142 ] || complain "the rule sheet in docs/RULES.md has another count of bytes"
section 'A drawing' | sed '1,/The table, /d' | bytes | sed 's/^/hex:/; s/$/\n/' >page
for given in text "hex:$(cat sheet)"; do
    "$bench" rules "$given" >said
    same "the table of the rule sheet in docs/RULES.md" said page
done
section 'A rule sheet' | sed '1,/^The rules fit/d' | tr '\n' ' ' | grep -o 'refused with [0-9]*\|input [0-9]*' | grep -o '[0-9]*' >page
: >said
for edit in '$d' 's/0    1    0    -/0    1    -    -/' 's/0    0    -    -/0    -    -    -/'; do
    sed "$edit" text >edited
    "$bench" rules edited 2>&1 | sed -n 's/.*: input \([0-9]*\), .*number \([0-9]*\): .*/\2\n\1/p' >>said
done
same "what docs/RULES.md says of other rules" said page
[ "$(wc -l <page)" -eq 6 ] || complain "docs/RULES.md says something else of other rules"

echo "docs: $failures differences"
[ "$failures" -eq 0 ]
