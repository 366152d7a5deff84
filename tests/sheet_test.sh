#!/bin/sh
# Runs the program sheet on netlists and on what is none, and looks at what it writes to either stream and at its exit status.
#
#     tests/sheet_test.sh SHEET FAILING NETLISTS [RESULTS]
#
# FAILING is the program with calls of the system that fail by wish (tests/failing.c). NETLISTS writes a netlist of a given size
# (tests/netlists.c). RESULTS, build/sheet_test if it is left out, is emptied and gets the netlists and sheets.
. "$(dirname "$0")/start.sh"

if [ $# -lt 3 ]; then
    echo "usage: tests/sheet_test.sh SHEET FAILING NETLISTS [RESULTS]" >&2
    exit 2
fi
program=$(realpath "$1") && failing=$(realpath "$2") && netlists=$(realpath "$3") || exit 2
enter "${4:-$root/build/sheet_test}" && cp "$root"/examples/selector.* . || exit 2

trials=0

# expect STATUS FILE MESSAGE COMMAND LINE: this line of the shell, in which sheet is the program, ends with this status, prints what
# the file holds, and says this on standard error.
sheet() {
    timeout 60 "$program" "$@"
}
failing_sheet() {
    FAIL=$1 timeout 60 "$failing"
}
expect() {
    status=$1 file=$2 message=$3
    shift 3
    trials=$((trials + 1))
    eval "$*" >out 2>err
    ended=$?
    [ $ended -eq "$status" ] || complain "$*: status $ended, not $status"
    cmp out "$file" || complain "$*: another text than $file"
    [ "$(cat err)" = "$message" ] || complain "$*: said: $(cat err)"
}

# same WHAT TEXT TEXT
same() {
    [ "$2" = "$3" ] || complain "$1: $2, not $3"
}

# rows NETLIST: a row for each gate, each output and the lamp, from the netlist's bytes.
rows() {
    od -An -v -tu1 "$1" | awk '
        function two(at) { return 256 * byte[at] + byte[at + 1] }
        { for (i = 1; i <= NF; i++) byte[count++] = $i }
        END {
            gates = two(5) / 5
            for (g = 0; g < gates; g++)
                printf "%5d %-3s %5d %5d\n", 2 + 2 * byte[3] + g, byte[7 + 5 * g] == 0 ? "AND" : "OR", two(8 + 5 * g), two(10 + 5 * g)
            outputs = two(8 + 5 * gates) / 4
            for (at = 10 + 5 * gates; j < outputs; at += 4)
                printf "%5d %-3s %5d %5d\n", j++, "OUT", two(at), two(at + 2)
            if (at < count)
                printf "%5d %-3s %5d %5d\n", 0, "LMP", two(at + 3), two(at + 5)
        }'
}

# size CONTACTS GATES OUTPUTS HEADINGS [lamp]: the sheet of a netlist of this size, with a lamp or without, has every row, and the
# heading in these lines alone.
heading='^ LINE KIN     A     B$'
size() {
    lamp=${5-} name=$2+$3 count=$(($2 + $3))
    [ -z "$lamp" ] || name=$name+1 count=$((count + 1))
    trials=$((trials + 1))
    "$netlists" "$2" "$1" "$2" "$3" $lamp >"$name.netlist"
    rows "$name.netlist" >"$name.rows"
    timeout 60 "$program" <"$name.netlist" >"$name.sheet" 2>err
    same "$name: status" $? 0
    same "$name: standard error" "$(cat err)" ''
    same "$name: headings" "$(grep -n "$heading" "$name.sheet" | sed 's/:.*//' | tr '\n' ' ')" "$4 "
    same "$name: rows" "$(wc -l <"$name.rows")" "$count"
    sed "/$heading/d" "$name.sheet" | cmp - "$name.rows" || complain "$name: rows"
}

expected=$root/tests/expected/sheet.txt
: >nothing
echo 11 >eleven
echo 12 >twelve

# The selector: heading, row one, last row, and the whole of it.
expect 0 "$expected" '' 'sheet <selector.netlist'
same 'row one' "$(sed -n 2p out)" '    8 AND     3     5'
same 'the last row' "$(sed -n '$p' out)" '    0 OUT    16    14'
same 'the bytes of the selector' "$(wc -c <out)" 242

# A board whose contacts are all spare: no gates, and outputs that are constants.
printf '\001\000\001\002\004\000\000\005\000\010\000\000\000\001\000\001\000\000' >spare
printf ' LINE KIN     A     B\n    0 OUT     0     1\n    1 OUT     1     0\n' >spare.sheet
expect 0 spare.sheet '' 'sheet <spare'

# With lamps: of one output; of two constants, made of six gates that have constants as sources.
printf '\001\000\001\001\004\000\000\005\000\004\000\002\000\003\006\000\004\000\002\000\003' >lamp
printf ' LINE KIN     A     B\n    0 OUT     2     3\n    0 LMP     2     3\n' >lamp.sheet
expect 0 lamp.sheet '' 'sheet <lamp'
{
    printf '\001\000\001\001\004\000\036\000\000\000\000\001\000\000\001\000\000\001\000\004\000\005\000\000\000\000\000'
    printf '\000\000\001\000\001\001\000\007\000\010\005\000\010\000\000\000\001\000\001\000\000\006\000\004\000\006\000\011'
} >lamp-of-constants
cat >lamp-of-constants.sheet <<end
 LINE KIN     A     B
    4 AND     0     1
    5 AND     1     0
    6 OR      4     5
    7 AND     0     0
    8 AND     1     1
    9 OR      7     8
    0 OUT     0     1
    1 OUT     1     0
    0 LMP     6     9
end
expect 0 lamp-of-constants.sheet '' 'sheet <lamp-of-constants'

# About the end of a page, with outputs on a page of their own; no gates; the largest, with lines of five digits.
size 1 48 1 '1'
size 12 41 8 '1'
size 3 49 1 '1'
size 3 42 8 '1'
size 3 50 1 '1 52'
size 3 43 8 '1 52'
size 5 99 1 '1 52'
size 5 92 8 '1 52'
size 5 100 1 '1 52 103'
size 5 93 8 '1 52 103'
size 1 0 1 '1'
size 12 0 8 '1'
# The same with lamps, which may have a page of their own; the largest that has just full pages.
size 1 47 1 '1' lamp
size 1 48 1 '1' lamp
size 12 41 8 '1' lamp
size 3 49 1 '1 52' lamp
size 3 42 8 '1 52' lamp
size 5 98 1 '1 52' lamp
size 5 91 8 '1 52' lamp
size 5 99 1 '1 52 103' lamp
size 5 92 8 '1 52 103' lamp
size 1 0 1 '1' lamp
size 12 0 8 '1' lamp
size 12 10591 8 "$(seq -s ' ' 1 51 10762)" lamp
# The largest of a table without the lamp; as many gates as there may be without a lamp and with one.
size 12 10560 8 "$(seq -s ' ' 1 51 10762)"
same 'the bytes of the largest without lamp' "$(wc -c <10560+8.sheet)" 237160
size 12 10602 8 "$(seq -s ' ' 1 51 10813)"
size 12 10602 8 "$(seq -s ' ' 1 51 10813)" lamp
same 'the bytes of the largest' "$(wc -c <10602+8+1.sheet)" 238128
same 'the last gate of the largest' "$(grep -c '^10627 ' 10602+8+1.sheet)" 1
largest=10602+8+1.netlist
same 'the bytes of the largest netlist' "$(wc -c <$largest)" 53059

# What is no netlist: nothing, a table, hex: text, a byte too few, a byte too many, no outputs, 13 contacts; however long it is.
printf '\001\000\001\001\004\000\000' >no-outputs
printf '\001\000\001\015\004\000\000\005\000\004\000\002\000\003' >13-contacts
expect 1 eleven '' 'sheet </dev/null'
expect 1 eleven '' 'sheet <selector.table'
expect 1 eleven '' 'printf hex:0100010104000005000400020003 | sheet'
expect 1 eleven '' 'head -c 58 selector.netlist | sheet'
expect 1 eleven '' '{ cat selector.netlist; echo; } | sheet'
expect 1 eleven '' 'sheet <no-outputs'
expect 1 eleven '' 'sheet <13-contacts'
expect 1 eleven '' "{ cat $largest; printf x; } | sheet"
expect 1 eleven '' "cat $largest $largest | sheet"
expect 1 eleven '' "{ cat 10602+8.netlist; printf x; } | sheet"
for lamp in '' ' lamp'; do
    "$netlists" 1 12 10603 8 $lamp >too-many
    expect 1 eleven '' 'sheet <too-many'
done
# A lamp twice, of another length, with another tag, with bytes behind it, cut short, and before the outputs.
lampless='\001\000\001\001\004\000\000\005\000\004\000\002\000\003'
for spoilt in '\006\000\004\000\002\000\003\006\000\004\000\002\000\003' '\006\000\000' '\006\000\003\000\002\000' \
    '\006\000\005\000\002\000\003\000' '\006\000\010\000\002\000\003\000\002\000\003' '\007\000\004\000\002\000\003' \
    '\005\000\004\000\002\000\003' '\006\000\004\000\002\000\003\000' '\006\000\004\000\002\000\003\006\000\000' '\006\000\004\000\002'; do
    printf "$lampless$spoilt" >spoilt
    expect 1 eleven '' 'sheet <spoilt'
done
printf '\001\000\001\001\004\000\000\006\000\004\000\002\000\003\005\000\004\000\002\000\003' >spoilt
expect 1 eleven '' 'sheet <spoilt'
expect 1 eleven '' 'sheet </dev/zero'
expect 1 eleven '' 'yes 2>/dev/null | sheet'
# A kind 2, a source that is its gate's own line, an output line and lamp lines that are not there.
printf '\001\000\001\001\004\000\005\002\000\002\000\003\005\000\004\000\004\000\003' >kind
printf '\001\000\001\001\004\000\005\000\000\002\000\004\005\000\004\000\004\000\003' >source
printf '\001\000\001\001\004\000\005\000\000\002\000\003\005\000\004\000\005\000\003' >output
printf "$lampless"'\006\000\004\000\004\000\003' >lamp-true
printf "$lampless"'\006\000\004\000\002\000\004' >lamp-false
for netlist in kind source output lamp-true lamp-false; do
    expect 1 twelve '' "sheet <$netlist"
done

# notes BYTES: notes of so many bytes together, 3 at least, each as long as it can be. Of a rest of 1 or 2 bytes the note before it
# is shorter.
notes() {
    left=$1
    while [ "$left" -gt 0 ]; do
        length=$((left - 3))
        [ $length -le 65535 ] || length=65535
        [ $((left - 3 - length)) -eq 0 ] || [ $((left - 3 - length)) -gt 2 ] || length=$((length - 3))
        printf "\\377\\$(printf %03o $((length / 256)))\\$(printf %03o $((length % 256)))"
        head -c $length /dev/zero | tr '\0' x
        left=$((left - 3 - length))
    done
}
# Notes: first, between the fields, last, of no bytes; one cut short, in each way; a field of tag 127 is no note.
note='\200\000\006\005\000\004hex'
expect 0 lamp.sheet '' "printf '$note\\001\\000\\001\\001$note$note\\004\\000\\000\\377\\000\\000\\005\\000\\004\\000\\002\\000\\003$note\\006\\000\\004\\000\\002\\000\\003$note' | sheet"
expect 0 "$expected" '' '{ notes 3; cat selector.netlist; notes 3; } | sheet'
for cut in '\200' '\200\000' '\200\000\001' '\200\000\004abc' '\200\377\377abc' '\200\000\000\200'; do
    expect 1 eleven '' "{ cat selector.netlist; printf '$cut'; } | sheet"
    expect 1 eleven '' "{ cat lamp; printf '$cut'; } | sheet"
done
expect 1 eleven '' "{ printf '\\200\\000\\100'; cat selector.netlist; } | sheet"
expect 1 eleven '' "{ printf '\\177\\000\\000'; cat selector.netlist; } | sheet"
expect 1 eleven '' "{ cat selector.netlist; printf '\\177\\000\\000'; } | sheet"
expect 1 eleven '' 'notes 1000 | sheet'
expect 1 twelve '' '{ notes 500; cat kind; notes 3; } | sheet'
# filled NETLIST BYTES: the netlist with notes behind it, so many bytes; filled_first: with notes before it.
filled() {
    cat "$1"
    notes $(($2 - $(wc -c <"$1")))
}
filled_first() {
    notes $(($2 - $(wc -c <"$1")))
    cat "$1"
}
# The most bytes that are read, 65,536, one more, and far more: these are refused first, whatever they are.
for bytes in 65535 65536; do
    for fill in filled filled_first; do
        same "the bytes of $fill $bytes" "$($fill selector.netlist $bytes | wc -c)" $bytes
        expect 0 "$expected" '' "$fill selector.netlist $bytes | sheet"
        expect 0 10602+8+1.sheet '' "$fill $largest $bytes | sheet"
        expect 1 twelve '' "$fill kind $bytes | sheet"
        expect 1 eleven '' "$fill 13-contacts $bytes | sheet"
    done
done
expect 0 "$expected" '' 'filled selector.netlist 65536 >filled; failing_sheet few_bytes <filled'
expect 0 "$expected" '' 'failing_sheet interrupted <filled'
for bytes in 65537 65538 100000 1000000 16777217; do
    for fill in filled filled_first; do
        expect 1 eleven '' "$fill selector.netlist $bytes 2>/dev/null | sheet"
        expect 1 eleven '' "$fill $largest $bytes 2>/dev/null | sheet"
        expect 1 eleven '' "$fill kind $bytes 2>/dev/null | sheet"
    done
done
expect 1 eleven '' '{ cat filled; printf x; } | sheet'
expect 1 eleven '' 'filled selector.netlist 65537 >filled; failing_sheet few_bytes <filled'
expect 1 eleven '' 'failing_sheet interrupted <filled'
# 4,096 empty notes before a netlist, and as many as there is room for.
expect 0 "$expected" '' '{ head -c 4096 /dev/zero | sed "s/\x00/\xff\x00\x00/g"; cat selector.netlist; } | sheet'
expect 0 "$expected" '' '{ head -c 21825 /dev/zero | sed "s/\x00/\xff\x00\x00/g"; cat selector.netlist; } | sheet'
expect 1 eleven '' '{ head -c 21826 /dev/zero | sed "s/\x00/\xff\x00\x00/g"; cat selector.netlist; } | sheet'

# Input in small pieces.
expect 0 "$expected" '' 'dd if=selector.netlist bs=1 2>/dev/null | sheet'
expect 0 "$expected" '' '{ head -c 5 selector.netlist; sleep 0.1; tail -c +6 selector.netlist; } | sheet'
expect 0 10602+8+1.sheet '' "cat $largest | sheet"
expect 0 10602+8+1.sheet '' "failing_sheet few_bytes <$largest"
expect 0 10602+8+1.sheet '' "failing_sheet interrupted <$largest"
expect 1 twelve '' 'failing_sheet few_bytes <kind'
expect 1 twelve '' 'failing_sheet interrupted <kind'

# An argument, and streams that fail.
for argument in selector.netlist - --help "''"; do
    expect 2 nothing 'usage: sheet <NETLIST' "sheet $argument <selector.netlist"
done
expect 3 nothing 'sheet: standard input: Bad file descriptor' 'sheet <&-'
expect 3 nothing 'sheet: standard input: Is a directory' 'sheet <.'
expect 3 nothing 'sheet: standard input: Input/output error' 'failing_sheet read <selector.netlist'
expect 3 nothing 'sheet: standard input: Input/output error' 'failing_sheet short_read <selector.netlist'
for netlist in selector.netlist kind $largest; do
    expect 3 nothing 'sheet: standard output: No space left on device' "sheet <$netlist >/dev/full"
    expect 3 nothing 'sheet: standard output: Bad file descriptor' "sheet <$netlist >&-"
    expect 3 nothing 'sheet: standard output: Input/output error' "failing_sheet write <$netlist"
done
head -c 7 "$expected" >seven
expect 3 seven 'sheet: standard output: Input/output error' 'failing_sheet short_write <selector.netlist'

echo "sheet: $trials trials, $failures failed"
[ "$failures" -eq 0 ]
