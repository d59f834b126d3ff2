#!/bin/sh
# Counts the instructions of one login, and measures replays of a login and of 1,000 and 10,000 events.
# README.md beside it says what is measured, and logins.txt what each row is.
set -eu
# shellcheck source=bench/common.sh
. "$(dirname "$(readlink -f "$0")")/common.sh"

needs rt valgrind awk

# A program whose proofs were not checked is built with checks that run, and is slower.
"$here/tools/prove" status >/dev/null || "$here/tools/prove"
program=$here/out/eap_login-proved

# rt ci takes what the gate keeps.
crates=$(sed -n 's/^\([a-z_]*\):.*/\1/p' "$here/crates.txt" | grep -v '_tests$\|^eap_login_main$')
# (its boxes are of their methods by the proof of the program's)
prove_all() {
    mkdir -p proofs/login_of
    sed 's/eap_login_main/login_count/g; s/run_over_boxes/login_of/g; s/ g c =/ c =/' \
        "$here/crates/eap_login_main/proofs/run_over_boxes/Answers.antt" >proofs/login_of/Answers.antt
    echo 0 >stdout && cd "$work" && rt ci
}
make_program login_count 'login_setup eap_method psk_ends gpsk_ends eap_world scenario_text world_commands eap_login' "$crates" prove_all

printf '%-24s %14s\n' 'a login, both ends' instructions
for kind in gpsk psk gpsk2; do
    printf '%-24s %14s\n' "$kind" "$(each_of 5 25 "$crate/out/login_count" $kind)"
done

# The settings of the login and its first three deliveries, then the server's first Request of the method
# again and again, to which the peer sends its Response again.
repeated() {
    sed '/^events$/q' "$here/examples/gpsk-login.scenario"
    printf 'deliver 1\ndeliver 2\n'
    yes 'deliver 3' | head -n $(($1 - 2))
    echo end
}

# The least seconds of five runs, and the most kilobytes of memory. Where a run doesn't end with 0, time
# writes a line more, of other words.
run() {
    for _ in 1 2 3 4 5; do
        /usr/bin/time -f '%e %M' "$program" replay <"$1" 2>&1 >/dev/null
    done | awk 'NF == 2 { if (!runs++ || $1 < s) s = $1; if ($2 > m) m = $2 } END { printf "%8.2f %10d", s, m }'
}

cp "$here/examples/gpsk-login.scenario" "$work/login"
cp "$here/examples/psk-login.scenario" "$work/psk"
repeated 1000 >"$work/thousand"
repeated 10000 >"$work/ten_thousand"
: >"$work/nothing"

printf '%-24s %14s %8s %10s\n' replayed instructions 'time, s' 'memory, KB'
for name in nothing login psk thousand ten_thousand; do
    printf '%-24s %14s %s\n' "$name" "$(instructions "$program" replay <"$work/$name")" "$(run "$work/$name")"
done

# Of one conversation: the difference of two runs.
printf '%-24s %14s\n' 'a conversation' instructions
for number in 1 0; do
    printf '%-24s %14s\n' "bulk $number" "$(each_of 10 1000 "$program" bulk "$number")"
done
