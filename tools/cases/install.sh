# shellcheck shell=sh disable=SC2154,SC2034,SC2086
# The cases of tools/install. Read by tools/check.

. tools/cases/lib/kit.sh
in_copy tools/prove

# The program that is kept, proved or not, in a folder of its own; it then runs without the kit on the PATH.
there=$work/there
tools/install --unchecked --prefix="$there" >"$work/put" 2>"$work/errors" || fail "install ends with a failure"
installed=$(head -n 1 "$work/put")
name=${installed##*/}
docs=$there/share/doc/$name
without_kit() { env -i PATH="$there/bin:/usr/bin:/bin" "$@"; }
case $(tools/prove status) in proved:* | dist:*) wanted=eap_login ;; *) wanted=eap_login-unchecked ;; esac
count=$((count + 1))
[ "$name" = "$wanted" ] || fail "install names the program $name, and not $wanted"

# The commands of the man page's examples, as they stand there, write what stands beside the examples.
page=$there/share/man/man1/$name.1
plain=$work/page
sed 's/\\-/-/g; s/\\(aq/'"'"'/g' "$page" >"$plain"
sed -n '/^\.EX/,/^\.EE/{ /^\./!p; }' "$plain" >"$work/commands"
without_kit sh "$work/commands" >"$work/said" 2>"$work/errors" || true
(
    cd examples || exit
    cat gpsk-login.trace gpsk-login.names packets.out keys.out login.replies altered.findings pcap.findings
    cat bulk-1-100.out gpsk-login.peer-told gpsk-login.server-told
) >"$work/wanted"
is_file "$work/wanted" "the man page's examples"
# Whether a command is installed; where it isn't, what is passed over is told.
has() {
    ! command -v "$1" >/dev/null || return 0
    echo "tools/check: $2 is passed over: $3 isn't installed" >&2
    return 1
}

# Nothing in a man page is wrong for groff.
is_right_for_groff() {
    has groff "groff on the man page" it || return 0
    groff -man -ww -Tutf8 "$1" >"$work/rendered" 2>"$work/said" || true
    is_file /dev/null "groff -ww of ${1##*/}"
}
is_right_for_groff "$page"

# By this command `eap_login WORDS` is completed so, by each line of the input; the word behind a last space is empty.
completes() {
    while IFS=: read -r words wanted; do
        count=$((count + 1))
        got=$(IFS=' ' && set -- "$@" eap_login $words && case $words in '' | *' ') set -- "$@" '' ;; esac && "$@")
        [ "$got" = "$wanted" ] || fail "$1 completes 'eap_login $words' by '$got', and not by '$wanted'"
    done
}

# bash completes the forms, and of pcap's users the kinds.
cat >"$work/complete" <<'TEXT'
. "$1"
shift
COMP_WORDS=("$@") COMP_CWORD=$(($# - 1))
_eap_login
echo "${COMPREPLY[*]}"
TEXT
! has bash "bash's completion" bash || completes bash "$work/complete" "$there/share/bash-completion/completions/$name" <<'TEXT'
:replay decode keys check pcap radius bulk peer server
p:pcap peer
replay :names
check :
pcap alice 5:51
pcap alice 51 :
TEXT
# zsh does too, with stand-ins for its own functions that write what they are given.
cat >"$work/complete.zsh" <<'TEXT'
_describe() { print -r -- ${(P)2%%:*} }
compadd() { print -r -- $@ }
_default() { print files }
file=$1
shift
words=("$@") CURRENT=$#
. $file
TEXT
! has zsh "zsh's completion" zsh || completes zsh -f "$work/complete.zsh" "$there/share/zsh/site-functions/_$name" <<'TEXT'
:replay decode keys check pcap radius bulk peer server
replay :names
check :files
pcap alice :47 51
pcap alice 51 :files
TEXT

# The tools in Python by their command, without the repository: each word is answered by --help with status 0, the bad ones
# aren't; they call the program beside them, and each other by the names that they have there.
command=$there/bin/tuvaddri
words='why page chart capture-of by-station decode-fields keys-of'
# (what the command hands to Python is noted, and run by one interpreter, whose start takes longer than all of it)
mkdir "$work/noting"
printf '#!/bin/sh\necho "$*" >>%s/noted\n' "$work" >"$work/noting/python3"
chmod +x "$work/noting/python3"
for it in $words; do (cd "$work" && PATH=$work/noting:$PATH "$command" $it --help) || fail "tuvaddri $it fails"; done
python3 -B - "$work/noted" >"$work/helps" <<'TEXT' || fail "no help of what is installed"
import contextlib, io, os, runpy, sys
for line in open(sys.argv[1]).read().splitlines():
    _, path, *words = line.split()
    out, ended, sys.argv, sys.path[0] = io.StringIO(), 0, [path, *words], os.path.dirname(path)
    with contextlib.redirect_stdout(out), contextlib.redirect_stderr(out):
        try:
            runpy.run_path(path, run_name="__main__")
        except SystemExit as its:
            ended = its.code or 0
    print(os.path.basename(path), ended, f"tuvaddri {os.path.basename(path)}" in out.getvalue())
TEXT
ended=0
"$command" --help >"$work/said" 2>&1 || ended=$?
echo " $ended $(! grep -q 'tuvaddri WORD' "$work/said" || echo True)" >>"$work/helps"
for it in '' $words; do
    found=$(sed -n "s/^$it //p" "$work/helps")
    holds "tuvaddri $it --help ends with ${found% *}" [ "${found% *}" = 0 ]
    [ "${found#* }" = True ] || fail "tuvaddri $it --help doesn't say how it is called"
done
# (compiled once, and not by each call)
python3 -m compileall -q "$there/share/tuvaddri/tools/lib"
for it in '' nothing lib ../tools/why --other; do
    ended=0
    "$command" $it >"$work/out" 2>"$work/said" || ended=$?
    holds "tuvaddri $it ends with $ended" [ "$ended $(wc -l <"$work/said") $(wc -c <"$work/out")" = '1 1 0' ]
done
holds "what is installed names a tool of the repository" [ -z "$(grep -rlE '(^|[^/a-z])tools/(why|page|chart|capture-of|by-station|decode-fields|keys-of)|\./eap_login' "$there/share/tuvaddri/tools")" ]
(cd "$work" && env -u EAP_LOGIN "$command" why "$OLDPWD/examples/login.pcap") >"$work/out" 2>"$work/errors" || fail "tuvaddri why fails: $(head -n 1 "$work/errors")"
tools/why examples/login.pcap 2>/dev/null | sed "s#tools/why#tuvaddri why#g; s#\\./eap_login#$name#g" >"$work/wanted"
cp "$work/out" "$work/said"
is_file "$work/wanted" "tuvaddri why"
"$command" --version >"$work/said"
has_line "tuvaddri: $(env -u EAP_LOGIN tools/why --version | sed 's/^[^:]*: //')" "tuvaddri --version"
is_right_for_groff "$there/share/man/man1/tuvaddri.1"
for it in $words; do
    count=$((count + 1))
    sed 's/\\-/-/g' "$there/share/man/man1/tuvaddri.1" | grep -qxF "\\fB$it\\fR" && grep -qF "$it" "$there/share/bash-completion/completions/tuvaddri" &&
        grep -qF "'$it:" "$there/share/zsh/site-functions/_tuvaddri" || fail "the man page or a completion of tuvaddri lacks $it"
done

# As Debian packages, unpacked elsewhere: the program runs there, and asks for what it is linked with and no more; so do
# the tools, which are in Python.
if has dpkg-deb "install --deb" dpkg-deb; then
    mkdir "$work/debs"
    DPKG_DEB_COMPRESSOR_LEVEL=1 tools/install --unchecked --deb "$work/debs" >"$work/said" 2>"$work/errors" ||
        fail "install --deb ends with a failure: $(head -n 1 "$work/errors")"
    package=tuvaddri
    [ "$name" = eap_login ] || package=tuvaddri-unchecked
    for made in "$work/debs/$package"_0.*_"$(dpkg --print-architecture)".deb; do
        has_line "$made" "install --deb"
        dpkg-deb -x "$made" "$work/unpacked"
        dpkg-deb -f "$made" Depends | tr , '\n' | sed 's/ *([^)]*)//; s/^ *//' | sort -u >"$work/depends"
    done
    scenario=$work/unpacked/usr/share/doc/$name/examples/gpsk-login.scenario
    without_kit "$work/unpacked/usr/bin/$name" replay <"$scenario" >"$work/said" || true
    is_file examples/gpsk-login.trace "the program of the package"
    { echo python3; ldd "$work/unpacked/usr/bin/$name" | sed -n 's/^\t\(lib[a-z_]*\)\..*/\1/p' |
        sed 's/^libm$/libc/; s/^libgcc_s$/libgcc-s1/; s/^libc$/libc6/'; } | sort -u >"$work/wanted"
    cp "$work/depends" "$work/said"
    is_file "$work/wanted" "the package's Depends"
    "$work/unpacked/usr/bin/tuvaddri" --version >"$work/said" || fail "the command of the package fails"
fi

# What is refused, and that nothing is there then.
refuses_words() {
    told=$1
    shift
    ended=0
    tools/install "$@" >"$work/out" 2>"$work/said" || ended=$?
    holds "install $* ends with $ended" [ "$ended $(cat "$work/out")" = '1 ' ]
    has_line "tools/install: $told" "install $*"
    has_line 'usage: tools/install [--unchecked] --prefix=DIR' "install $*"
    has_line 'usage: tools/install [--unchecked] [--modules=DIR] [--plugin=DIR] [--wpa=DIR] --deb=DIR' "install $*"
}
refuses_words "one of --prefix and --deb is wanted"
refuses_words "the prefix here isn't a whole path: it begins with no /" --prefix=here
refuses_words "--prefix wants a name behind it" --unchecked --prefix
refuses_words "--other is no word of it" --other
for it in modules plugin wpa; do refuses_words "--modules, --plugin and --wpa are for --deb" --$it=here --prefix=/here; done
refuses "there is no folder $work/none" tools/install --unchecked --deb="$work/none"
refuses "$work has no rlm_eap_gpsk.so; c/freeradius/build builds it" tools/install --unchecked --modules="$work" --deb="$work"
refuses "$work has no libstrongswan-eap-tuvaddri.so; c/strongswan/build builds it" tools/install --plugin="$work" --deb="$work"
refuses "$work has no wpasupplicant; c/hostapd/build-packages builds it" tools/install --wpa="$work" --deb="$work"

# The stand-in's program is proved: it is installed by its own name, below DESTDIR, with the library, which another
# program finds by pkg-config. When a source has changed it isn't proved, and is refused, with nothing put in place.
cp -R --parents tools/install tools/why tools/page tools/chart tools/capture-of tools/by-station tools/decode-fields tools/keys-of tools/lib share docs/*.md \
    examples/keys.txt c/python c/rust c/examples c/hostapd/README.md c/hostapd/*.c \
    c/README.md c/NOTICE c/spdx.json c/numbers.txt c/*.h c/*.c "$copy"
mkdir -p "$copy/c/out"
DESTDIR=$work/dest in_copy tools/install --prefix /opt/eap
holds "install of a proved program" [ "$ended $(head -n 1 "$work/out")" = "0 $work/dest/opt/eap/bin/eap_login" ]
says "tools/install: the library for C is left out: c/library proves and builds it"
holds "install leaves the library out" [ ! -e "$work/dest/opt/eap/include" ]
number=$(sed -n 's/^#define TUV_VERSION //p' c/tuvaddri.h)
echo 'unsigned tuv_version(void) { return 2; }' >"$work/stub.c"
gcc -c -fPIC -o "$work/stub.o" "$work/stub.c"
ar rc "$copy/c/out/libtuvaddri.a" "$work/stub.o"
gcc -shared -Wl,-soname,"libtuvaddri.so.$number" -o "$copy/c/out/libtuvaddri.so.$number" "$work/stub.o"
in_copy tools/install --prefix "$work/with"
holds "install of the library" cmp -s c/tuvaddri.h "$work/with/include/tuvaddri.h"
holds "install of its archive" cmp -s "$copy/c/out/libtuvaddri.a" "$work/with/lib/libtuvaddri.a"
holds "install of its shared object" cmp -s "$copy/c/out/libtuvaddri.so.$number" "$work/with/lib/libtuvaddri.so"
for it in EMBEDDING.md NOTICE examples/both.c hostapd/server_method.c; do
    holds "install of $it" [ -s "$work/with/share/doc/tuvaddri/$it" ]
done
if has pkg-config pkg-config it; then
    found=$(PKG_CONFIG_PATH=$work/with/lib/pkgconfig pkg-config --cflags --libs tuvaddri | tr -s ' ' | sed 's/ $//')
    holds "pkg-config finds '$found'" [ "$found" = "-I$work/with/include -L$work/with/lib -ltuvaddri" ]
fi
# CMake's find_package has both forms, which a program is linked with, of this version alone, where the prefix is now; it
# leaves the caller's variables.
if has cmake CMake it; then
    mkdir "$work/cmake"
    cat >"$work/cmake/program.c" <<'TEXT'
#include <tuvaddri.h>
int main(void) { return tuv_version() == TUV_VERSION ? 0 : 1; }
TEXT
    cat >"$work/cmake/CMakeLists.txt" <<TEXT
cmake_minimum_required(VERSION 3.10)
project(program C)
foreach(other 3 $number.7 "$number.7;EXACT" 1)
  find_package(tuvaddri \${other} QUIET)
  if(tuvaddri_FOUND)
    message(FATAL_ERROR "version \${other} is found")
  endif()
endforeach()
foreach(it name form file target lib prefix)
  set(\${it} "the caller's")
endforeach()
find_package(tuvaddri $number EXACT REQUIRED)
find_package(tuvaddri $number REQUIRED)
find_package(tuvaddri REQUIRED)
foreach(it name form file target lib prefix)
  if(NOT \${it} STREQUAL "the caller's")
    message(FATAL_ERROR "\${it} is \${\${it}}")
  endif()
endforeach()
foreach(form tuvaddri static)
  add_executable(by-\${form} program.c)
  target_link_libraries(by-\${form} tuvaddri::\${form})
endforeach()
TEXT
    cp -R "$work/with" "$work/moved"
    mv "$work/with/lib" "$work/lib"
    holds "CMake finds the library" cmake -S "$work/cmake" -B "$work/cmake/out" -DCMAKE_PREFIX_PATH="$work/moved" --log-level=ERROR
    holds "CMake links both forms" cmake --build "$work/cmake/out"
    holds "what CMake has linked with the shared object" "$work/cmake/out/by-tuvaddri"
    holds "what CMake has linked with the archive" "$work/cmake/out/by-static"
    mv "$work/lib" "$work/with/lib"
fi
for it in lib/python3/dist-packages/tuvaddri/__init__.py share/tuvaddri/rust/src/lib.rs; do
    holds "install of $it" [ -s "$work/with/$it" ]
done
# A library whose proofs weren't checked is in packages of names of their own, which stand in for the others.
if has dpkg-deb "install --deb" dpkg-deb; then
    mkdir -p "$copy/c/out/unchecked" "$work/of-library"
    mv "$copy"/c/out/libtuvaddri.* "$copy/c/out/unchecked"
    # (the stand-in's program is a script)
    mkdir "$work/stubs"
    ln -s /bin/true "$work/stubs/strip"
    PATH=$work/stubs:$PATH
    DPKG_DEB_COMPRESSOR_LEVEL=1 in_copy tools/install --unchecked --deb "$work/of-library"
    for it in "libtuvaddri$number" libtuvaddri-dev; do
        made=$(echo "$work/of-library/$it-unchecked"_0.*_amd64.deb)
        holds "the package $it-unchecked stands in for the proved one" [ "$(dpkg-deb -f "$made" Package Conflicts | tr '\n' ' ')" = "Package: $it-unchecked Conflicts: $it " ]
        holds "the package $it-unchecked says what it is" sh -c "dpkg-deb -f '$made' Description | tr -d '\n' | grep -q 'were not *checked'"
        holds "no package has the name $it" [ "$(echo "$work/of-library/$it"_*)" = "$work/of-library/${it}_*" ]
    done
fi
echo >>"$copy/crates/octet_lists/src/lib.rt"
in_copy tools/install --prefix "$work/not-proved"
holds "install takes a program that isn't proved" [ "$ended $(test -e "$work/not-proved" && echo there)" = '2 ' ]
