#!/bin/sh
# Draws random drawings from their bytes, from these with notes, and from their text: all must give the same table or the same refusal.
# Malformed ones are refused with 16 every way, and the message says what is wrong.
#
#     tests/draw_test.sh BENCH SKETCHES [RESULTS]
#
# SKETCHES writes drawings (tests/sketches.c). RESULTS, build/draw_test if it is left out, is emptied.
. "$(dirname "$0")/start.sh"

if [ $# -lt 2 ]; then
    echo "usage: tests/draw_test.sh BENCH SKETCHES [RESULTS]" >&2
    exit 2
fi
bench=$(realpath "$1") && sketches=$(realpath "$2") || exit 2
enter "${3:-$root/build/draw_test}"

# drawn FORM: draws it; leaves the table or what stands behind ": refused" in FORM.table, and says the exit status.
drawn() {
    "$bench" draw "$1" >"$1.table" 2>"$1.said"
    echo $?
    sed -n 's/.*: refused, /refused, /p' "$1.said" >>"$1.table"
}

tables=0 refused=0
seed=0
while [ $((seed = seed + 1)) -le 60 ]; do
    "$sketches" $seed bytes >bytes && "$sketches" $seed noted >noted && "$sketches" $seed text >text || complain "seed $seed: no drawing"
    status=$(drawn bytes)
    [ "$(drawn text)" = "$status" ] && cmp bytes.table text.table || complain "seed $seed: text and bytes differ"
    [ "$(drawn noted)" = "$status" ] && cmp bytes.table noted.table || complain "seed $seed: notes make a difference"
    case $status in
    0) tables=$((tables + 1)) ;;
    1) grep -q 'number 17' bytes.said && refused=$((refused + 1)) || complain "seed $seed: $(cat bytes.said)" ;;
    *) complain "seed $seed: status $status: $(cat bytes.said)" ;;
    esac
done

# The kinds of tests/malformed.h. A message names the file, then what is wrong; of a text's node also its line.
malformed=0 as_text=0
kind=-1
while [ $((kind = kind + 1)) -le 20 ]; do
    for seed in 1 2 3; do
        "$sketches" $seed bytes $kind >bytes || complain "kind $kind, seed $seed: no drawing"
        [ "$(drawn bytes)" = 1 ] && grep -q '^pilgodur: bytes: [^:]*: refused, number 16: ' bytes.said ||
            complain "kind $kind, seed $seed: $(cat bytes.said)"
        "$sketches" $seed noted $kind >noted || complain "kind $kind, seed $seed: no drawing"
        [ "$(drawn noted)" = 1 ] && [ "$(sed 's/bytes:/noted:/' bytes.said)" = "$(cat noted.said)" ] ||
            complain "kind $kind, seed $seed, with notes: $(cat noted.said)"
        malformed=$((malformed + 1))
        "$sketches" $seed text $kind >text || continue
        [ "$(drawn text)" = 1 ] && grep -q '^pilgodur: text: \(line [0-9]*: node \|there are \)[^:]*: refused, number 16: ' text.said ||
            complain "kind $kind, seed $seed, text: $(cat text.said)"
        as_text=$((as_text + 1))
    done
done

echo "draw: $tables tables, $refused refused by 17, $malformed malformed, all with notes too, $as_text of these as text too, $failures failures"
[ "$failures" -eq 0 ] && [ $tables -gt 20 ] && [ $refused -gt 0 ] && [ $as_text -gt 15 ]
