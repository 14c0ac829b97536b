#!/bin/bash
# How long a hash of a password takes: the built program beside the system's libcrypt, in one run, in turns.
# `bench/crypt.sh`, from any directory; ./build first, or name the program by PAMSESS. It wants gcc and libcrypt with its header:
# apt-get install gcc libcrypt-dev. Printed are milliseconds of the processor for one hash, the least of nine runs each. The
# program's are what 20 logins take beyond 20 that stop before the hash, by 20: with the reading of the two account files.
set -euo pipefail
case ${1-} in
    -h | --help) sed -n '2,/^[^#]/s/^# \{0,1\}//p' "$0" && exit ;;
esac
cd "$(dirname "$0")/.."
program=${PAMSESS:-$PWD/$(lib/program pam_session_cli)}
[ -x "$program" ] || { echo "crypt.sh: no program is built: ./build builds it" >&2; exit 1; }
room=$(mktemp -d)
trap 'rm -rf "$room"' EXIT
TIMEFORMAT='%U %S'
rounds=20

cat >"$room/driver.c" <<'C'
#include <crypt.h>
#include <stdio.h>
#include <stdlib.h>
int main(int words, char **word) {
    static struct crypt_data data;
    const char *hash = "";
    for (int i = 0; i < atoi(word[1]); i++)
        hash = crypt_r(word[3], word[2], &data);
    puts(hash);
    return words != 4;
}
C
gcc -O2 -o "$room/driver" "$room/driver.c" -lcrypt

# The seconds of the processor that a command takes whose input is a file.
seconds() {
    local input=$1
    shift
    { time "$@" <"$input" >/dev/null 2>&1; } 2>&1 | awk '{ printf "%.6f", $1 + $2 }'
}

# A script of so many logins, each with a key as its reply.
logins() {
    echo "start 1 t joe"
    for ((i = 0; i < rounds; i++)); do
        echo "reply 1 $1"
        echo "authenticate 1"
    done
}

mkdir -p "$room/root/etc/pam.d"
echo "auth required pam_unix.so nodelay" >"$room/root/etc/pam.d/t"
echo "joe:x:1000:1000:Joe:/home/joe:/bin/sh" >"$room/root/etc/passwd"

echo "| Setting | Bytes of the key | Program | libcrypt | Ratio |"
echo "|---|--:|--:|--:|--:|"
# shellcheck disable=SC2016 # (a dollar sign is a part of the setting)
for setting in '$5$saltstring' '$6$saltstring'; do
    for length in 1 12 40 128 504; do
        key=$(printf '%*s' "$length" '' | tr ' ' x)
        hash=$("$room/driver" 1 "$setting" "$key")
        logins "$key" >"$room/script"
        : >"$room/times"
        for _ in 1 2 3 4 5 6 7 8 9; do
            echo "joe:$hash:19000:0:99999:7:::" >"$room/root/etc/shadow"
            ours=$(seconds "$room/script" "$program" run "$room/root")
            echo "joe:!$hash:19000:0:99999:7:::" >"$room/root/etc/shadow"
            idle=$(seconds "$room/script" "$program" run "$room/root")
            theirs=$(seconds /dev/null "$room/driver" "$rounds" "$setting" "$key")
            none=$(seconds /dev/null "$room/driver" 0 "$setting" "$key")
            echo "$ours $idle $theirs $none" >>"$room/times"
        done
        awk -v setting="$setting" -v bytes="$length" -v rounds="$rounds" '
            { for (i = 1; i <= 4; i++) if (NR == 1 || $i < least[i]) least[i] = $i }
            END {
                ours = 1000 * (least[1] - least[2]) / rounds
                theirs = 1000 * (least[3] - least[4]) / rounds
                printf "| `%s` | %d | %.3f | %.3f | %.2f |\n", setting, bytes, ours, theirs, ours / theirs
            }' "$room/times"
    done
done
