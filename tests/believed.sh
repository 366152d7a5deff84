#!/bin/sh
# Counts the lines of the definitions that a reader must believe, and sees that docs/CLAIMS.md has that count: every line of
# crates/*/specs/*.antt that is neither an import, a module's name, a comment nor blank. Not counted are specs/Inner/, which
# only proofs read, and the worked cases of Starred.antt.
cd "$(dirname "$0")/.." || exit 2
count=$(ls crates/*/specs/*.antt | grep -v -e /Starred.antt -e /Lib.antt -e /Inner.antt |
    xargs cat | grep -v -c -e '^use ' -e '^ *--' -e '^ *$' | sed 's/[0-9]\{3\}$/,&/')
echo "believed: $count lines"
grep -q "\*\*$count lines\*\*" docs/CLAIMS.md || {
    echo "docs/CLAIMS.md has another count"
    exit 1
}
