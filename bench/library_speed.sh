#!/bin/sh
# A login by the library for C, both ends: its instructions, the difference of 60 logins and 20, by 40; each makes, begins,
# reports, closes, clears and frees both handles, and clears the stack. And its processor time, by the clock: the least of
# 40 times 500 logins. With SOURCE, the unpacked source package `wpa` 2.10, hostapd's library does the same logins in
# turns with ours, by the same program (c/hostapd/pairs.c). A virtual machine shows by time what instructions hide.
#
#   bench/library_speed.sh [SOURCE]
#
# It takes the archive that TUV_LIBRARY names, as `rt lib` writes it, or proves and builds the library. Where chrt is allowed,
# the programs run before all others, on the last processor.
set -eu
# shellcheck source=bench/common.sh
. "$(dirname "$(readlink -f "$0")")/common.sh"

join_library
gcc -std=c11 -O2 -Wall -Wextra -Werror -I"$here/c" -o "$work/speed" "$here/bench/library_speed.c" "$work/libtuvaddri.a"
echo 'a login, both ends         instructions'
for login in '51 1 gpsk' '47 0 psk' '51 2 gpsk2'; do
    # shellcheck disable=SC2086
    set -- $login "$@"
    printf '%-26s %12d\n' "$3" "$(each_of 20 60 "$work/speed" "$1" "$2")"
    shift 3
done
[ $# = 1 ] || exit 0

make -s -C "$work" -f "$here/c/hostapd/pairs.mk" "SOURCE=$(readlink -f "$1")" "HERE=$here/c/hostapd" "LIBRARY=$work"
first="chrt -r 10 taskset -c $(($(nproc) - 1))"
$first true 2>/dev/null || first=
unset GLIBC_TUNABLES
# shellcheck disable=SC2086
for _ in $(seq 40); do
    for login in '51 1 gpsk' '47 0 psk' '51 2 gpsk2'; do
        for side in o h; do
            set -- $login
            $first "$work/pairs" $side $side "$1" "$2" 500 | sed -n "s/.*microseconds each /$3 $side /p"
        done
    done
done >"$work/times"
awk '{ it = $1 " " $2; if (!(it in least) || $3 < least[it]) least[it] = $3 }
    END {
        printf "%-26s %12s %12s %9s\n", "a login, both ends", "microseconds", "hostapd'"'"'s", "ratio"
        split("gpsk psk gpsk2", names)
        for (i = 1; i <= 3; i++)
            printf "%-26s %12.2f %12.2f %9.2f\n", names[i], least[names[i] " o"], least[names[i] " h"],
                least[names[i] " o"] / least[names[i] " h"]
    }' "$work/times"
