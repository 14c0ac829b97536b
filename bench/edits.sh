#!/bin/sh
# Tries every mutant of the crates named, or of all crates: those of CI (crates/NAME/must-fail) and the others (tests/mutants/NAME). Prints
# the result of each and how many were refused, and fails if one wasn't. The crates are proved first, unless ./build has proved them.
set -u
case ${1-} in
    -h | --help) sed -n '2,/^[^#]/s/^# \{0,1\}//p' "$0" && exit ;;
esac
cd "$(dirname "$0")/.." || exit 1
# shellcheck disable=SC2046 # (names of crates have no spaces)
[ $# -gt 0 ] || set -- $({ ls tests/mutants; for it in crates/*/must-fail; do basename "${it%/must-fail}"; done; } | sort -u)
exec ./build --mutants "$@"
