# The program of dist/, by the C compiler alone. Read after common.sh.

# Keeps it as eap_login-dist, and sets `kind` and `program`; where dist/ was made of other sources, has none for this machine or
# isn't as it was made, or there is no compiler, says so and fails.
build_dist() {
    [ -e "$here/dist/MADE" ] || return 1
    text=$(uname -m)-unknown-linux-gnu/eap_login.s compiler=${CC:-cc}
    if ! why=$("$here/dist/check" "$text" 2>&1); then
        say "${why#dist/check: }"
    elif ! command -v "${compiler%% *}" >/dev/null; then
        say "dist/ is not taken, since there is no C compiler ${compiler%% *}"
    elif clean_at_end "$kept"; then
        assemble >"$work/log" 2>&1 && is_assembled=yes || is_assembled=no
        [ "$is_assembled" = yes ] || say "dist/$text was not assembled: $(tail -n 1 "$work/log")"
        forget_end
        [ "$is_assembled" = no ] || return 0
    fi
    return 1
}

assemble() {
    # shellcheck disable=SC2086
    $compiler -O2 -o "$work/dist" "$here/dist/$text" "$here/dist/system.c" -Wl,--wrap=main,--gc-sections,-z,relro,-z,now &&
        "$work/dist" decode </dev/null && keep dist "$work/dist" "$sources"
}
