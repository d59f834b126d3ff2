# shellcheck shell=sh
# What the measurements share: a folder of their own, a program over the crates, the library for C, counts of instructions.

here=$(dirname "$(dirname "$(readlink -f "$0")")")
. "$here/.ci/help.sh"
work=$(mktemp -d)
trap 'rm -rf "$work"' EXIT
trap 'exit 1' HUP INT
# Zeroing by `rep stosb` counts as one instruction an octet, so it is turned off.
export GLIBC_TUNABLES=glibc.cpu.x86_rep_stosb_threshold=10000000

needs() {
    for it; do
        command -v "$it" >/dev/null || { echo "${0##*/}: $it isn't there" >&2; exit 127; }
    done
}

# Makes the program $1, whose text is $1.rt.in beside this file, over the crates $2, by the command behind these. It stands
# beside copies of the crates $3, without edits and what earlier checks left. Sets `crate` to its folder.
make_program() {
    name=$1 names=$2 crates=$3 crate=$work/crates/$1
    shift 3
    mkdir "$work/crates"
    cp "$here/HANDLES" "$work/HANDLES"
    # shellcheck disable=SC2086
    grep -E "^($(echo $crates | tr ' ' '|')):" "$here/crates.txt" >"$work/crates.txt"
    for it in $crates; do
        mkdir "$work/crates/$it"
        for part in src specs proofs; do
            [ ! -d "$here/crates/$it/$part" ] || cp -R "$here/crates/$it/$part" "$work/crates/$it/"
        done
    done
    (cd "$work" && rt new "crates/$name" start_io >/dev/null 2>&1)
    echo "$name: $names" >>"$work/crates.txt"
    (cd "$crate" && rm -rf proofs specs src stdin stdout BUILD.bazel && mkdir src)
    cp "$here/bench/$name.rt.in" "$crate/src/main.rt"
    echo "$name: proving and building" >&2
    (cd "$crate" && rt fmt && "$@") >"$work/log" 2>&1 || {
        grep -a 'error\|not proved\|NOT PROVED\|passed' "$work/log" >&2
        exit 1
    }
}

# Puts the library for C there: of the archive that TUV_LIBRARY names, as `rt lib` writes it, or proved and built.
join_library() {
    archive=${TUV_LIBRARY:-$here/crates/tuvaddri_c/out/libtuvaddri_c.a}
    [ -n "${TUV_LIBRARY-}" ] || "$here/c/library"
    "$here/c/library" join "$archive" "$work"
}

instructions() {
    valgrind --tool=callgrind --callgrind-out-file="$work/callgrind.out" "$@" 2>&1 >/dev/null | sed -n 's/.*Collected : //p'
}

# Of one of what a command does so often as its last word says: the difference of two runs.
each_of() {
    few=$1 many=$2
    shift 2
    echo $((($(instructions "$@" "$many" </dev/null) - $(instructions "$@" "$few" </dev/null)) / (many - few)))
}
