#!/bin/sh
# Looks at an installation: compiles the C example against it, runs it and the bench program.
#
#     tests/install_test.sh DESTDIR PREFIX RESULTS CC
. "$(dirname "$0")/start.sh"

if [ $# -ne 4 ]; then
    echo "usage: tests/install_test.sh DESTDIR PREFIX RESULTS CC" >&2
    exit 2
fi
destination=$1 prefix=$2 cc=$4
enter "$3"

# run_example COMMAND...: compiles it, and compares what it says.
run_example() {
    rm -f example
    "$@" -o example && ./example | diff "$root/tests/expected/example.txt" - || complain "$*"
}

here=$destination$prefix
run_example "$cc" -std=c11 -I"$here/include" "$root/tests/example.c" -L"$here/lib" -lpilgodur
if command -v pkg-config >/dev/null; then
    flags=$(PKG_CONFIG_PATH=$here/lib/pkgconfig PKG_CONFIG_SYSROOT_DIR=$destination pkg-config --cflags --libs pilgodur)
    # shellcheck disable=SC2086
    run_example "$cc" -std=c11 "$root/tests/example.c" $flags
    PKG_CONFIG_PATH=$here/lib/pkgconfig pkg-config --modversion pilgodur | sed 's/^/pilgodur /' >version
    "$here/bin/pilgodur" --version | diff - version || failures=$((failures + 1))
fi
if command -v g++ >/dev/null; then
    run_example g++ -x c++ -I"$here/include" "$root/tests/example.c" -x none -L"$here/lib" -lpilgodur
fi
"$here/bin/pilgodur" check "$root/examples/selector.table" >/dev/null || failures=$((failures + 1))
[ "$(stat -c %a "$here/bin/pilgodur" "$here/include/pilgodur.h" | tr '\n' ' ')" = '755 644 ' ] || failures=$((failures + 1))

echo "install: $failures failures"
[ "$failures" -eq 0 ]
