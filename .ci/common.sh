# What eap_login, test and tools/prove share: which programs are kept and what they were built of, and how a long command
# is followed. Read with `here` set to the top of the repository and `me` to the name of the script.

crate=$here/crates/eap_login_main
# A program is kept as eap_login-proved, whose proofs were checked on this machine, as eap_login-dist, assembled of dist/, as
# eap_login-unchecked, or, for ./test, as eap_login-sanitized. Beside it stands its record, NAME.of: the kit's line, a sum of
# each source, and the program's own sum.
kept=$here/out
work='' working='' begun=''

# What can't be said stops nothing: standard error may be closed or full.
[ -e /proc/self/fd/2 ] || exec 2>/dev/null
say() { echo "$me: $1" >&2 || true; }
minutes() { echo $((($(date +%s) - begun) / 60)); }

# Ends with 127 where what is needed isn't there, and warns of another logic than the README names.
need_rt() {
    for it in rt python3; do
        command -v "$it" >/dev/null || {
            cat >&2 <<TEXT
$me: the command $it isn't on the PATH.
rt belongs to the Rattle kit: put the kit's bin/ on the PATH, or a link to its bin/rt. Besides it takes Linux on
x86-64 and python3, which rt is written in; no network and no other library.
TEXT
            exit 127
        }
    done
    named=$(sed -n 's/.*`\(rattle-kit-[^`]*\)`.*/\1/p' "$here/README.md" | head -n 1)
    found=$(rt version)
    # A later kit with the same logic takes the same proofs.
    [ "${named##* logic }" = "${found##* logic }" ] || say "warning: the README names the toolchain $named, and this is $found"
}

# The lines of crates.txt for the crates that the program stands on, itself among them; or that these crates do.
lines_below() {
    awk -v above="${*:-eap_login_main}" '
        { line = $0; sub(/#.*/, "") }
        /:/ { name = $1; sub(/:$/, "", name); deps[name] = $0; sub(/^[^:]*:/, "", deps[name]); names[++all] = name; lines[all] = line }
        function take(name,    words, count, at) {
            if (!(name in deps) || name in taken) return
            taken[name] = 1
            count = split(deps[name], words, " ")
            for (at = 1; at <= count; at++) take(words[at])
        }
        END {
            top = split(above, tops, " ")
            for (at = 1; at <= top; at++) take(tops[at])
            for (at = 1; at <= all; at++) if (names[at] in taken) print lines[at]
        }
    ' "$here/crates.txt"
}

# A sum of each file that decides what the program is: the sources, definitions and proofs of these crates, and
# which crates stand on which. Tests, must-fail edits and stored runs decide nothing. Other words are another sum than
# cksum, and the crates.
sums_of_sources() {
    (
        cd "$here"
        set -f
        by=${1-cksum}
        [ $# = 0 ] || shift
        lines=$(lines_below "$@")
        printf '%s\n' "$lines"
        folders=$(printf '%s\n' "$lines" | while IFS=': ' read -r name _; do
            for part in src specs proofs; do
                [ ! -d "crates/$name/$part" ] || echo "crates/$name/$part"
            done
        done)
        find $folders -type f | LC_ALL=C sort | xargs "$by"
    )
}

# The record of a program of the kind $1 at $2, but for its first line, the kit's: a sum of each source, of what built it,
# and its own.
record_of() {
    printf '%s\n' "$sources"
    case $1 in
    proved) ;;
    dist) cat "$here/dist/MADE" "$here/dist/system.c" 2>/dev/null | cksum ;;
    *) cksum <"$here/.ci/front_end.py" ;;
    esac
    cksum <"$2"
}

# Finds what is kept of these sources, of these kinds, or a proved program before one of dist/ and that before an unchecked
# one, and sets `kind` and `program`.
find_program() {
    for kind in ${*:-proved dist unchecked}; do
        program=$kept/eap_login-$kind
        if [ -x "$program" ] && [ -f "$program.of" ] && [ "$(sed 1d "$program.of")" = "$(record_of "$kind" "$program")" ]; then
            return 0
        fi
    done
    kind=none
    return 1
}

# Finds the program that was run last, where nothing that decides it has changed since: no file or folder has a later time
# of change. Else it goes by the sums, assembles that of dist/ before it takes an unchecked one, and notes when it looked (a
# second before, since a file's time is coarser).
find_soon() {
    if [ -f "$kept/seen" ] && read -r kind <"$kept/seen"; then
        program=$kept/eap_login-$kind
        set -- "$program" "$program.of" "$here/.ci/front_end.py" "$here/crates.txt"
        [ ! -e "$here/dist/MADE" ] || set -- "$@" "$here/dist/MADE" "$here/dist/system.c"
        newer=$(find "$@" "$here"/crates/*/src "$here"/crates/*/specs "$here"/crates/*/proofs -cnewer "$kept/seen" \
            -print -quit 2>&1) || newer=unseen
        # (the times of these two tell that a crate, or all of them, stand in the place of others)
        for it in "$here" "$here/crates"; do [ ! "$it" -nt "$kept/seen" ] || newer=$it; done
        [ -n "$newer" ] || return 0
    fi
    looked=$(date -d '1 second ago' +@%s)
    sources=$(sums_of_sources)
    find_program proved dist || build_dist || find_program unchecked || return 1
    { echo "$kind" >"$kept/seen.new.$$" && touch -d "$looked" "$kept/seen.new.$$" && mv "$kept/seen.new.$$" "$kept/seen"; } \
        2>/dev/null || true
}

# The version of packages of the sources with the sums `sources`, and the day of it: that of the commit, or of a release.
set_version() {
    day=$(date -u -d "@${SOURCE_DATE_EPOCH:-$(git -C "$here" log -1 --format=%ct 2>/dev/null || echo 946684800)}" +%Y%m%d)
    version=0.$day+$(printf '%s\n' "$sources" | cksum | cut -d ' ' -f 1)
}

can_keep() { mkdir -p "$kept" && (: >>"$kept/lock"); }

# The kit that a program of this kind is built by.
kit_of() {
    case $1 in
    dist) sed -n 's/^kit \(.*\) rattle .*/\1/p' "$here/dist/MADE" ;;
    *) rt version ;;
    esac
}

# Keeps the program $2 as one of the kind $1 that was built of the sources with the sums $3. The record comes last and
# has the program's sum, so that half of both counts for nothing.
keep() {
    program=$kept/eap_login-$1 sources=$3
    mkdir -p "$kept" && rm -f "$kept/seen" && cp "$2" "$program.new.$$" &&
        { kit_of "$1" && record_of "$1" "$2"; } >"$program.of.new.$$" &&
        mv "$program.new.$$" "$program" && mv "$program.of.new.$$" "$program.of" && kind=$1
}

# From here on a signal ends what was started, and in the end nothing is left in "$work": in the folder $1, if that can be
# written, since the system's one for temporary files may let no program run.
clean_at_end() {
    begun=${begun:-$(date +%s)}
    work=
    [ $# = 0 ] || work=$(mkdir -p "$1" && mktemp -d "$1/work.XXXXXX") 2>/dev/null || work=
    [ -n "$work" ] || work=$(mktemp -d) || return
    trap 'stop; rm -rf "$work" "$kept"/*.new."$$"' EXIT
    trap 'give_up 130' INT
    trap 'give_up 143' TERM
    trap 'give_up 129' HUP
}

forget_end() {
    rm -rf "$work"
    trap - EXIT INT TERM HUP
}

# Ends what was started, by the numbers in `working`.
stop() {
    [ -n "$working" ] || return 0
    # shellcheck disable=SC2086
    { kill $working || true; wait $working || true; } 2>/dev/null
    working=
}

give_up() {
    trap '' INT TERM HUP
    stop
    say "stopped"
    exit "$1"
}

# Runs a command with its output in "$log", calls the first word, which tells how far it is, each second, and gives the
# command's status.
follow() {
    tells=$1
    shift
    "$@" >"$log" 2>&1 </dev/null &
    working=$!
    while kill -0 "$working" 2>/dev/null; do
        sleep 1
        "$tells"
    done
    status=0
    wait "$working" || status=$?
    working=
    "$tells"
    return "$status"
}
