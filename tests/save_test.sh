#!/bin/sh
# Tries -o where it must not harm a file: the output is an input, or something goes wrong on the way.
#
#     tests/save_test.sh BENCH FAILING [RESULTS]
#
# FAILING is the bench with calls of the system that fail by wish: the one that the variable FAIL names (tests/failing.c).
# RESULTS, build/save_test if it is left out, is emptied and gets the files that the bench writes.
. "$(dirname "$0")/start.sh"

if [ $# -lt 2 ]; then
    echo "usage: tests/save_test.sh BENCH FAILING [RESULTS]" >&2
    exit 2
fi
bench=$(realpath "$1") && failing=$(realpath "$2") || exit 2
enter "${3:-$root/build/save_test}" && cp "$root"/examples/* . || exit 2

trials=0

# expect STATUS MESSAGE COMMAND...: the command ends with this status, says this alone, on standard error, and leaves no temporary
# file behind.
expect() {
    status=$1 message=$2
    shift 2
    trials=$((trials + 1))
    "$@" >out 2>err </dev/null
    ended=$?
    [ $ended -eq "$status" ] || complain "$*: status $ended, not $status"
    [ "$(cat err)" = "$message" ] || complain "$*: said: $(cat err)"
    [ ! -s out ] || complain "$*: wrote to standard output"
    [ -z "$(find . -name '.pilgodur-*')" ] || complain "$*: left a temporary file"
}

# same FILE FILE
same() {
    cmp "$1" "$2" || complain "$1 and $2 differ"
}

# mode FILE PERMISSIONS
mode() {
    [ "$(stat -c %a "$1")" = "$2" ] || complain "$1: permissions $(stat -c %a "$1"), not $2"
}

examples=$root/examples
overwrite='the output would overwrite'

# The output is an input: by its own name, other spellings, links, standard input, standard output.
cp selector.table kept.table
ln -s selector.table link.table
ln selector.table twin.table
mkdir folder
for output in selector.table ./selector.table folder/../selector.table "$PWD/selector.table" link.table twin.table; do
    expect 2 "pilgodur: $output: $overwrite selector.table, which was read" "$bench" build selector.table -o "$output"
done
expect 2 "pilgodur: selector.table: $overwrite link.table, which was read" "$bench" dictionary link.table -o selector.table
expect 2 "pilgodur: selector.table: $overwrite selector.table, which was read" "$bench" export selector.table --dot -o selector.table
expect 2 "pilgodur: ./gallery.drawing: $overwrite gallery.drawing, which was read" "$bench" draw gallery.drawing -o ./gallery.drawing
expect 2 "pilgodur: selector.table: $overwrite standard input, which was read" \
    sh -c "'$bench' build - -o selector.table <selector.table"
expect 2 "pilgodur: standard output: $overwrite selector.table, which was read" sh -c "'$bench' list selector.table >>selector.table"
same selector.table kept.table
same gallery.drawing "$examples/gallery.drawing"

# A new file has the permissions that the mask leaves, a replaced one keeps its own; a link stays a link.
umask 027
expect 0 '' "$bench" build selector.table -o new.netlist
same new.netlist "$examples/selector.netlist"
mode new.netlist 640
umask 022
echo old >old.netlist
chmod 604 old.netlist
expect 0 '' "$bench" build selector.table -o old.netlist
same old.netlist "$examples/selector.netlist"
mode old.netlist 604
echo old >aim
ln -s ../aim folder/link
expect 0 '' "$bench" build selector.table -o folder/link
same aim "$examples/selector.netlist"
[ -L folder/link ] || complain "a link was replaced"
expect 0 '' "$bench" build selector.table -o folder/new
expect 0 '' "$bench" draw hex:0100010302000103070012010500000206000001020001010701020001 -o drawn.table
same drawn.table "$examples/selector.table"
same folder/new "$examples/selector.netlist"

# Not a regular file: written directly.
mkfifo pipe
timeout 10 cat pipe >from_pipe &
reader=$!
expect 0 '' "$bench" build selector.table -o pipe
wait $reader
same from_pipe "$examples/selector.netlist"
[ -p pipe ] || complain "a pipe was replaced"
"$bench" build selector.table -o /proc/self/fd/1 | cmp - "$examples/selector.netlist" || complain "a path to standard output"

# Devices. Root could replace those of the system, so for root they are made here; where that cannot be done they are left out.
devices=/dev
if [ "$(id -u)" -eq 0 ]; then
    devices=devices
    mkdir devices
    mknod devices/null c 1 3 && mknod devices/full c 1 7 && { : >devices/null; } || rm -rf devices
fi 2>/dev/null
if [ -c $devices/null ] && [ -c $devices/full ]; then
    expect 0 '' "$bench" build selector.table -o $devices/null
    expect 3 "pilgodur: $devices/full: No space left on device" "$bench" build selector.table -o $devices/full
    expect 3 "pilgodur: $devices/null: Input/output error" env FAIL=write "$failing" build selector.table -o $devices/null
    expect 3 "pilgodur: $devices/null: Input/output error" env FAIL=close "$failing" build selector.table -o $devices/null
    [ -c $devices/null ] && [ -c $devices/full ] || complain "a device was replaced"
fi
expect 3 'pilgodur: .: Is a directory' "$bench" build selector.table -o .
ln -s nowhere lost
expect 3 'pilgodur: lost: it is a link that leads nowhere' "$bench" build selector.table -o lost
expect 3 'pilgodur: no/such/folder: No such file or directory' "$bench" build selector.table -o no/such/folder
expect 3 'pilgodur: aim/new: Not a directory' "$bench" build selector.table -o aim/new

# A folder, or a file, that one may not write. For root both may be written.
if [ "$(id -u)" -ne 0 ]; then
    mkdir locked
    echo old >locked/old
    chmod 555 locked
    expect 3 'pilgodur: locked/old: Permission denied' "$bench" build selector.table -o locked/old
    expect 3 'pilgodur: locked/new: Permission denied' "$bench" build selector.table -o locked/new
    chmod 755 locked
    chmod 444 locked/old
    expect 3 'pilgodur: locked/old: Permission denied' "$bench" build selector.table -o locked/old
    [ "$(cat locked/old)" = old ] || complain "a file that may not be written was"
fi

# A refusal, and whatever goes wrong on the way, leave the old file as it was.
echo old >old
expect 1 'pilgodur: hex:: refused, number 2: Is the first field tag 1, length 1, value 1 to 12? No.' "$bench" build hex: -o old
expect 3 'pilgodur: no-such.table: No such file or directory' "$bench" build no-such.table -o old
echo contacts 3 >cut.drawing
expect 3 'pilgodur: cut.drawing: line 1: the text ends before the line: outputs NODE...' "$bench" draw cut.drawing -o old
expect 3 'pilgodur: old: Input/output error' env FAIL=fsync "$failing" draw gallery.drawing -o old
expect 3 'pilgodur: old: File too large' sh -c "ulimit -f 4; exec '$bench' build widest.table -o old"
expect 3 'pilgodur: old: File too large' sh -c "ulimit -f 4; exec '$bench' dictionary widest.table -o old"
for call in mkstemp fchmod write short_write fsync close rename; do
    expect 3 'pilgodur: old: Input/output error' env FAIL=$call "$failing" build selector.table -o old
    expect 3 'pilgodur: new: Input/output error' env FAIL=$call "$failing" build selector.table -o new
    [ ! -e new ] || complain "a new file was left after $call failed"
done
[ "$(cat old)" = old ] || complain "an old file has changed"
expect 3 'pilgodur: standard output: Input/output error' env FAIL=write "$failing" list selector.table

# Writes that take only some bytes, or are interrupted, are taken up again; a signal waits for the rename.
for call in few_bytes interrupted; do
    expect 0 '' env FAIL=$call "$failing" build widest.table -o widest.$call
done
"$bench" build widest.table -o widest.netlist
same widest.few_bytes widest.netlist
same widest.interrupted widest.netlist
echo old >old
{ env FAIL=terminated "$failing" build selector.table -o old; } 2>/dev/null
[ $? -eq 143 ] || complain "a signal while writing was lost"
same old "$examples/selector.netlist"
[ -z "$(find . -name '.pilgodur-*')" ] || complain "a signal left a temporary file"

echo "save: $trials trials, $failures failed"
[ "$failures" -eq 0 ]
