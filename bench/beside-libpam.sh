#!/bin/sh
# Measures the built program beside the installed libpam and beside pamtester, and prints the tables of docs/speed.md: see
# beside-libpam.py. `bench/beside-libpam.sh [--page] [--rounds N] [transactions] [processes] [memory] [counts] [calls]`, from any
# directory, as root.
# It wants gcc, valgrind, strace, pamtester, and libpam with its headers and modules:
# apt-get install gcc libpam0g-dev libpam-modules pamtester strace valgrind
case ${1-} in
    -h | --help) sed -n '2,/^[^#]/s/^# \{0,1\}//p' "$0" && exit ;;
esac
exec python3 "$(dirname "$0")/beside-libpam.py" "$@"
