#!/bin/sh
# Lets each allocation of a run fail, one run at a time. README.md beside it says what is looked at.
set -eu
# shellcheck source=bench/common.sh
. "$(dirname "$(readlink -f "$0")")/common.sh"

fail() {
    echo "failing_allocations: $1" >&2
    exit 1
}

cc -shared -fPIC -o "$work/counting.so" "$here/tools/cases/lib/counting.c"
"$here/eap_login" decode </dev/null >"$work/said"
kind=$("$here/tools/prove" status) || true
program=$here/out/eap_login-${kind%%:*}

# Runs the program with these words over a file, where the allocation of this number fails (0: none).
run() {
    input=$1 number=$2 status=0
    shift 2
    FAILING=$number LD_PRELOAD=$work/counting.so "$program" "$@" <"$input" >"$work/$number" 2>"$work/said" || status=$?
}

each() {
    input=$1
    shift
    run "$input" 0 "$@"
    [ "$status" = 0 ] || fail "$*: status $status with all memory"
    count=$(sed -n 's/^malloced by \([0-9]*\) calls$/\1/p' "$work/said")
    [ "${count:-0}" -gt 0 ] || fail "$*: nothing counts its allocations"
    for number in $(seq "$count"); do
        run "$input" "$number" "$@"
        [ "$status" = 5 ] || fail "$*: allocation $number fails, and the status is $status: $(tail -n 3 "$work/said")"
        head -c "$(wc -c <"$work/$number")" "$work/0" | cmp -s - "$work/$number" ||
            fail "$*: allocation $number fails, and no front of the text was written"
    done
    echo "$*: each of $count allocations fails: status 5, and a front of the text"
}

each "$here/examples/through.scenario" replay
each /dev/null bulk 1 3
