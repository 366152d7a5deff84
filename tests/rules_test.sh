#!/bin/sh
# Makes tables of random rule sheets from their bytes, from these with notes, and from their text: all must give the same table or the same
# refusal, and a message about an input must name the right input and the right rules. Malformed sheets are refused with 18 every way,
# and the message says what is wrong.
#
#     tests/rules_test.sh BENCH RULINGS [RESULTS]
#
# RULINGS writes rule sheets (tests/rulings.c). RESULTS, build/rules_test if it is left out, is emptied.
. "$(dirname "$0")/start.sh"

if [ $# -lt 2 ]; then
    echo "usage: tests/rules_test.sh BENCH RULINGS [RESULTS]" >&2
    exit 2
fi
bench=$(realpath "$1") && rulings=$(realpath "$2") || exit 2
enter "${3:-$root/build/rules_test}"

# ruled FORM: leaves the table in FORM.table and the message in FORM.said, and says the exit status.
ruled() {
    "$bench" rules "$1" >"$1.table" 2>"$1.said"
    echo $?
}

# by_lines: the message about the bytes, with lines of the text instead of the rules' numbers.
by_lines() {
    sed 's/#.*//' text | awk -v said="$(sed 's/^pilgodur: bytes:/pilgodur: text:/' bytes.said)" '
        /:/ { line[count++] = NR }
        END {
            if (match(said, /rules [0-9]+ and [0-9]+/)) {
                split(substr(said, RSTART, RLENGTH), word, " ")
                said = substr(said, 1, RSTART - 1) "rules on lines " line[word[2]] " and " line[word[4]] substr(said, RSTART + RLENGTH)
            }
            if (said != "")
                print said
        }'
}

tables=0 wide=0 shared=0 unruled=0
seed=0
while [ $((seed = seed + 1)) -le 30 ]; do
    for form in bytes noted text answer; do
        "$rulings" $seed $form >$form || complain "seed $seed: no rule sheet"
    done
    status=$(ruled bytes)
    [ "$(ruled text)" = "$status" ] && cmp bytes.table text.table && [ "$(by_lines)" = "$(cat text.said)" ] ||
        complain "seed $seed: text and bytes differ: $(cat bytes.said text.said)"
    [ "$(ruled noted)" = "$status" ] && cmp bytes.table noted.table && [ "$(sed 's/bytes:/noted:/' bytes.said)" = "$(cat noted.said)" ] ||
        complain "seed $seed: notes make a difference: $(cat noted.said)"
    [ "$(sed -n 's/^pilgodur: bytes: \(input .*\): refused, .*/\1/p' bytes.said)" = "$(cat answer)" ] ||
        complain "seed $seed: $(cat answer), but the program says: $(cat bytes.said)"
    case $status$(sed -n 's/.* refused, number \([0-9]*\): .*/ \1/p' bytes.said) in
    0) tables=$((tables + 1)) ;;
    '1 17') wide=$((wide + 1)) ;;
    '1 19') shared=$((shared + 1)) ;;
    '1 20') unruled=$((unruled + 1)) ;;
    *) complain "seed $seed: status $status: $(cat bytes.said)" ;;
    esac
done

# The kinds of tests/malformed.h. A message names the file, then what is wrong; of a text also the line.
malformed=0 as_text=0
kind=-1
while [ $((kind = kind + 1)) -le 40 ]; do
    "$rulings" $kind bytes $kind >bytes && "$rulings" $kind noted $kind >noted || continue
    [ "$(ruled bytes)" = 1 ] && grep -q '^pilgodur: bytes: [^:]*: refused, number 18: ' bytes.said ||
        complain "kind $kind: $(cat bytes.said)"
    [ "$(ruled noted)" = 1 ] && [ "$(sed 's/bytes:/noted:/' bytes.said)" = "$(cat noted.said)" ] ||
        complain "kind $kind, with notes: $(cat noted.said)"
    malformed=$((malformed + 1))
    "$rulings" $kind text $kind >text || continue
    [ "$(ruled text)" = 1 ] && [ "$(sed 's/^pilgodur: text: line [0-9]*: /pilgodur: bytes: /' text.said)" = "$(cat bytes.said)" ] ||
        complain "kind $kind, text: $(cat text.said)"
    as_text=$((as_text + 1))
done

echo "rules: $tables tables, $wide refused by 17, $shared by 19, $unruled by 20, $malformed malformed, all with notes too, $as_text of these" \
    "as text too, $failures failures"
[ "$failures" -eq 0 ] && [ $tables -gt 8 ] && [ $wide -gt 0 ] && [ $shared -gt 2 ] && [ $unruled -gt 2 ] && [ $malformed -eq 40 ] && [ $as_text -eq 7 ]
