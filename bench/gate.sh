#!/bin/sh
# What CI costs: runs `rt ci`, and prints each crate's processor seconds of proof, tests and mutants, and their sum. With --anew
# all is proved from nothing, with --beyond the mutants of tests/mutants are tried too, and counted apart, with --watch PROCESS a run
# that was begun elsewhere is measured. See gate.py for the rest.
case ${1-} in
    -h | --help) sed -n '2,/^[^#]/s/^# \{0,1\}//p' "$0" && exit ;;
esac
exec python3 "$(dirname "$0")/gate.py" "$@"
