#!/bin/bash
# Measures a login through the C library of libpam beside the same through the system's libpam, in turns, in roots of
# their own, and what memory an open transaction takes. Of ours also what it takes
#
#   shared    with pam_service as ./build links it, over shared libraries, and not as libpam/link does
#   bare      without pam_gate, which only this measurement leaves out
#   yes       with a C program that only says yes in the place of pam_service, linked in the same way
#
# `bench/clients.sh [TURNS]`; the program is crates/pam_service/out's, or the one that PAM_SERVICE names. It wants root, gcc,
# and what tests/clients/check downloads (run that first). PRIORITY is a command before the one that is measured, such as
# `chrt -f 5` on a machine that has other work.
set -eu
case ${1-} in
    -h | --help) sed -n '2,/^[^#]/s/^# \{0,1\}//p' "$0" && exit ;;
esac
cd "$(dirname "$0")/.."
turns=${1:-10}
cache=${CLIENTS_CACHE:-${XDG_CACHE_HOME:-$HOME/.cache}/pamsess-clients}
server=${PAM_SERVICE:-$(lib/program pam_service)}
if [ ! -e "$cache/complete" ] || [ ! -x "$server" ]; then
    echo "bench/clients.sh: run tests/clients/check first, with $server built" >&2
    exit 1
fi
work=$(mktemp -d)
trap 'rm -rf "$work"' EXIT
headers=-I$cache/sys/usr/include
caller=1
"$server" --caller 0 </dev/null >/dev/null 2>&1 || caller=0
libpam/link "$server" "$work/pam_service"
mkdir "$work/bring"
make -s -C libpam OUT="$work/libpam.so.0" CPPFLAGS="$headers" CALLER=$caller
gcc -O2 -Wall -Wextra "$headers" -o "$work/bring/clients" bench/clients.c "$work/libpam.so.0"
gcc -O2 -Wall -Wextra -static-pie -o "$work/yes" bench/yes.c
cp -r libpam "$work/bare"
sed -i 's/begin(copies, words, copies->pipe\[0\],/begin(copies, words, copies->socket,/
s/return copy_process(become_gate, .*/return 0;/
s/write(pipes\[1\], frame/write(pair[0], frame/' "$work/bare/src/server.c"
if [ "$(diff libpam/src/server.c "$work/bare/src/server.c" | grep -c '^>')" -ne 3 ]; then
    echo "bench/clients.sh: libpam/src/server.c isn't what its three edits here expect" >&2
    exit 1
fi
make -s -C "$work/bare" OUT="$work/bare/libpam.so.0" CPPFLAGS="$headers" CALLER=$caller WARNINGS=

run() { # LIBRARY SERVER WORD..
    # shellcheck disable=SC2086 # (a command with its words)
    BRING="$work/bring" tests/clients/room "$cache/sys" "$1" "$2" ${PRIORITY-} /brought/clients "${@:3}"
}
# Prints `SERVICE WHOSE LEAST MEDIAN` for each turn.
time_logins() { # SERVICE WHOSE LIBRARY SERVER
    run "$3" "$4" time "$1" joe 'Hello world!' 200 | sed "s/^/$1 $2 /"
}
for ((turn = 0; turn < turns; turn++)); do
    for service in permit unixn; do
        time_logins $service ours "$work/libpam.so.0" "$work/pam_service"
        time_logins $service libpam - "$server"
        time_logins $service shared "$work/libpam.so.0" "$server"
        time_logins $service bare "$work/bare/libpam.so.0" "$work/pam_service"
    done
    time_logins permit yes "$work/libpam.so.0" "$work/yes"
done | sort -k1,2 | awk '
    function flush() { if (n) { printf "%-7s %-7s least %6d us, median of the quietest turn %6d us\n", service, whose, least, median } }
    $1 != service || $2 != whose { flush(); service = $1; whose = $2; least = $3; median = $4; n = 0 }
    { n++; if ($3 < least) least = $3; if ($4 < median) median = $4 }
    END { flush() }'
echo "an open transaction, ours:   $(run "$work/libpam.so.0" "$work/pam_service" memory unixn joe 'Hello world!')"
echo "an open transaction, libpam: $(run - "$server" memory unixn joe 'Hello world!')"
