# What the test scripts share, to be sourced at their start: the root, the plain locale, a count of failures, a folder for results.
set -u
LC_ALL=C
export LC_ALL
root=$(cd "$(dirname "$0")/.." && pwd) || exit 2
failures=0

complain() {
    echo "FAILED: $*"
    failures=$((failures + 1))
}

# enter RESULTS: empties the folder; the test goes on in it.
enter() {
    rm -rf "$1" && mkdir -p "$1" && cd "$1" || exit 2
}
