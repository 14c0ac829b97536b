#!/bin/bash
# How long the built program takes, in seconds of its own (user and system), the least of five runs each:
# scripts of more and more lines, beside a plain count of their lines and, where its path is given, beside an earlier program;
# loads of 1,000 and of 4,000 lines; an authentication for each line that it walks; and a user that a module looks up.
# `bench/speed.sh [EARLIER]`, from any directory; ./build first.
set -euo pipefail
case ${1-} in
    -h | --help) sed -n '2,/^[^#]/s/^# \{0,1\}//p' "$0" && exit ;;
esac
cd "$(dirname "$0")/.."
program=$PWD/$(lib/program pam_session_cli)
earlier=${1-}
[ -x "$program" ] || { echo "speed.sh: no program is built: ./build builds it" >&2; exit 1; }

room=$(mktemp -d)
trap 'rm -rf "$room"' EXIT
mkdir -p "$room/etc/pam.d"
TIMEFORMAT='%U %S'

# The least seconds of five runs of a command whose input is a file.
seconds() {
    local input=$1
    shift
    for _ in 1 2 3 4 5; do
        { time "$@" <"$input" >/dev/null 2>&1; } 2>&1
    done | awk '{ s = $1 + $2; if (NR == 1 || s < least) least = s } END { printf "%.3f", least }'
}

lines() {
    for ((i = 0; i < $1; i++)); do echo "$2"; done
}

echo "auth required pam_permit.so" >"$room/etc/pam.d/login"
echo "| Lines of the script | Program | Count of lines | Earlier program |"
echo "|--:|--:|--:|--:|"
for count in 4096 8192 16384 32768 65536; do
    { echo "start 1 login"; lines $((count - 2)) "authenticate 1"; echo "end 1 0"; } >"$room/script"
    before=-
    [ -z "$earlier" ] || before=$(seconds "$room/script" "$earlier" run "$room")
    echo "| $count | $(seconds "$room/script" "$program" run "$room") | $(seconds "$room/script" wc -l) | $before |"
done

# Services of so many lines, in a file that is included twice, since one file may not hold 4,000 of them.
for count in 1000 4000; do
    lines $((count / 2)) "auth optional pam_permit" >"$room/etc/pam.d/half$count"
    lines 2 "auth include half$count" >"$room/etc/pam.d/all$count"
    for ((i = 0; i < 200; i++)); do echo "start 1 all$count"; echo "end 1 0"; done >"$room/starts$count"
    { echo "start 1 all$count"; lines 200 "authenticate 1"; echo "end 1 0"; } >"$room/walks$count"
done
short=$(seconds "$room/starts1000" "$program" run "$room")
long=$(seconds "$room/starts4000" "$program" run "$room")
echo
echo "200 starts on 1,000 lines: $short; on 4,000 lines: $long; ratio $(awk -v a="$short" -v b="$long" 'BEGIN { printf "%.1f", b / a }')"
short=$(seconds "$room/walks1000" "$program" run "$room")
long=$(seconds "$room/walks4000" "$program" run "$room")
each=$(awk -v b="$long" 'BEGIN { printf "%.2f", b * 1e6 / (200 * 4000) }')
echo "200 authentications over 1,000 lines: $short; over 4,000 lines: $long; $each microseconds for each line walked and reported"

# The last user of a password file of 10,000 lines, looked up by a module; the same calls of a module that reads no file.
for ((i = 0; i < 10000; i++)); do echo "user$i:x:$((1000 + i)):100:User $i:/home/user$i:/bin/bash"; done >"$room/etc/passwd"
echo "auth required pam_succeed_if.so uid >= 1000" >"$room/etc/pam.d/account"
for service in login account; do
    { echo "start 1 $service user9999"; lines 400 "authenticate 1"; echo "end 1 0"; } >"$room/$service"
done
without=$(seconds "$room/login" "$program" run "$room")
with=$(seconds "$room/account" "$program" run "$room")
each=$(awk -v a="$without" -v b="$with" 'BEGIN { printf "%.2f", (b - a) * 1000 / 400 }')
echo "400 users looked up among 10,000: $with, without that $without; $each milliseconds each"
