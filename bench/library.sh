#!/bin/sh
# What a start and a pass cost by themselves, in instructions for a line: calls of the library without a script and a report, over a
# service in memory, counted by callgrind (valgrind). The program is that of the crate bench_library, or the one that the variable
# LIBRARY_BENCH names. What a run without that repetition takes is taken off.
set -eu
case ${1-} in
    -h | --help) sed -n '2,/^[^#]/s/^# \{0,1\}//p' "$0" && exit ;;
esac
cd "$(dirname "$0")/.."
program=${LIBRARY_BENCH-$PWD/$(lib/program bench_library)}
command -v valgrind >/dev/null || { echo "library.sh: there is no valgrind" >&2; exit 1; }
[ -x "$program" ] || { echo "library.sh: no program is built: (cd crates/bench_library && rt run -- 1 1 1) builds it" >&2; exit 1; }

# The instructions of a run with these words: lines, starts, passes.
instructions() {
    valgrind --tool=callgrind --callgrind-out-file=/dev/null "$program" "$@" 2>&1 >/dev/null |
        awk '/Collected/ { print $NF }'
}

echo "| Lines | Start and end, for a line | Pass, for a line |"
echo "|--:|--:|--:|"
for lines in 1 10 100 1000; do
    none=$(instructions $lines 0 0)
    starts=$(instructions $lines 20 0)
    one=$(instructions $lines 1 0)
    passes=$(instructions $lines 1 50)
    echo "| $lines | $(((starts - none) / 20 / lines)) | $(((passes - one) / 50 / lines)) |"
done
