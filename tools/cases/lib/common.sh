# shellcheck shell=sh disable=SC2034,SC2012,SC2015
# What the cases in shell share; tools/check runs each NAME.sh beside this file behind it. A case counts itself in `count`,
# and where it fails, by `fail`, in `failed`.
set -eu
work=$(mktemp -d)
trap 'rm -rf "$work"' EXIT
trap 'exit 1' HUP INT TERM
mkdir "$work/left"
TMPDIR=$work/left
export TMPDIR
count=0 failed=0

fail() {
    echo "tools/check: $1" >&2
    failed=$((failed + 1))
}

# What a tool wrote, in "$work/said", is this file.
is_file() {
    count=$((count + 1))
    cmp -s "$work/said" "$1" || fail "$2 writes something else than $1: $(diff "$1" "$work/said" | sed -n 2p)"
}

# What a tool wrote has this line.
has_line() {
    count=$((count + 1))
    grep -qxF -- "$1" "$work/said" || fail "$2 doesn't write the line: $1"
}

# A tool refuses its words, with status 1, or what it is given, with 2: it writes nothing, and says this in one line.
refuses() {
    told=$1 ended=0
    shift
    count=$((count + 1))
    "$@" >"$work/out" 2>"$work/errors" </dev/null || ended=$?
    grep -v 'proofs of this program were not checked' "$work/errors" >"$work/said" || true
    case $ended in 1 | 2) ;; *) ended=wrong ;; esac
    [ "$ended" != wrong ] && [ ! -s "$work/out" ] && [ "$(wc -l <"$work/said")" = 1 ] && grep -qF -- "$told" "$work/said" ||
        fail "$* doesn't refuse and say '$told' (status $ended; $(head -n 1 "$work/said"))"
}

# Ends a file of cases: what it counted, and whether it left anything among the temporary files.
ends_cases() {
    count=$((count + 1))
    [ -z "$(ls "$work/left")" ] || fail "something is left among the temporary files: $(ls "$work/left" | head -n 1)"
    echo "$((count - failed)) passed, $failed failed"
}
