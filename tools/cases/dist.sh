# shellcheck shell=sh disable=SC2154,SC2012,SC2016,SC2034
# The cases of ./eap_login and dist/check over stand-ins for the assembly and for the kit. Read by tools/check.

. tools/cases/lib/kit.sh

text=$(uname -m)-unknown-linux-gnu/eap_login.s
from_dist="eap_login: the proofs of this program were not checked on this machine, but where dist/ was made; tools/prove checks them, and so does ./test"
anew='dev/dist makes it anew'

# A dist/ of these sources, whose program takes any words.
write_dist() {
    mkdir -p "$copy/dist/${text%/*}"
    cp dist/check dist/system.c "$copy/dist"
    cp "$work/it.s" "$copy/dist/$text"
    {
        echo 'kit rattle-kit-0 logic 0 rattle 1 clang 2'
        echo "sources $("$copy/dist/check" sources)"
        echo "file $text $(sha256sum <"$copy/dist/$text" | cut -d ' ' -f 1)"
    } >"$copy/dist/MADE"
}

checks() {
    in_copy dist/check "$@"
    holds "dist/check $*" [ "$ended $(cat "$work/out" "$work/said")" = "$told" ]
}

refuses "there is no folder $work/none" dev/release "$work/none"
refuses "$work isn't the source of FreeRADIUS 3.2" dev/release "$work" "$work"

# Neither the kit nor Python; what a compiler needs is where it is.
mkdir "$work/bare"
for tool in sh as awk cat cc cksum cp cut date dirname find grep head ld mkdir mktemp mv readlink rm sed sha256sum sort tail \
    touch tr uname wc xargs; do
    ! command -v "$tool" >/dev/null || ln -s "$(command -v "$tool")" "$work/bare/$tool"
done
if command -v cc >/dev/null; then
    echo 'int puts(const char *); int main(void) { return puts("assembled") < 0; }' >"$work/it.c"
    cc -O1 -fPIE -S "$work/it.c" -o "$work/it.s"
    write_dist
    told="0 dist/check: 1 files are as they were made, of these sources"
    checks
    : >"$BUILDS"
    path=$work/bare login replay
    only_says "$from_dist"
    ends 0 assembled "eap_login of dist/"
    keeps 'eap_login-dist eap_login-dist.of seen ' "eap_login keeps something else than the program of dist/"
    path=$work/bare login replay
    only_says "$from_dist"
    in_copy tools/prove status
    holds "the status of a program of dist/ is another" grep -qxE 'dist: of the sources [0-9]+, by rattle-kit-0 logic 0' "$work/out"
    holds "tools/prove status of a program of dist/ ends with 0" [ "$ended" = 1 ]
    leaves_nothing "eap_login of dist/"

    # Where the folder for temporary files isn't there, or lets no program run, that of kept programs is taken.
    rm -r "$copy/out"
    tmp=$work/none path=$work/bare login replay
    ends 0 assembled "eap_login without a folder for temporary files"
    keeps 'eap_login-dist eap_login-dist.of seen ' "eap_login without a folder for temporary files keeps something else"

    # Before an unchecked program, behind a proved one.
    rm -r "$copy/out"
    mv "$copy/dist/MADE" "$work/MADE"
    login replay
    ends 0 'unchecked words: replay' "eap_login without a dist/"
    mv "$work/MADE" "$copy/dist/MADE"
    touch "$copy/dist/MADE"
    login replay
    ends 0 assembled "eap_login of a dist/ that is there again"
    in_copy tools/prove
    login replay
    ends 0 'proved words: replay' "eap_login of a proved program beside dist/"

    # Without a compiler, or by one that fails, it is said, and the kit builds; without that either nothing is.
    rm -r "$copy/out"
    mv "$work/bare/cc" "$work/cc"
    path=$work/bare login replay
    says "eap_login: dist/ is not taken, since there is no C compiler cc"
    says "eap_login: the command rt isn't on the PATH."
    ends 127 '' "eap_login without a compiler and a kit"
    CC=false login replay
    says "eap_login: dist/$text was not assembled: "
    ends 0 'unchecked words: replay' "eap_login by a compiler that fails"
    mv "$work/cc" "$work/bare/cc"

    # A file that was changed, with a changed sum too, one too many, and other sources are refused; the kit builds.
    for change in "s/assembled/assembles/" "1s/^/# /"; do
        rm -rf "$copy/out"
        write_dist
        sed -i "$change" "$copy/dist/$text"
        login replay
        says "eap_login: dist/$text isn't as it was made: \`git checkout dist\` takes it back, $anew"
        ends 0 'unchecked words: replay' "eap_login of a changed dist/"
    done
    told="1 dist/check: dist/$text isn't as it was made: \`git checkout dist\` takes it back, $anew"
    checks
    write_dist
    : >"$copy/dist/${text%/*}/other.s"
    told="1 dist/check: dist/${text%/*}/other.s isn't as it was made: \`git checkout dist\` takes it back, $anew"
    checks
    rm "$copy/dist/${text%/*}/other.s" "$copy/dist/$text"
    told="1 dist/check: dist/ has no $text"
    checks
    for change in octet_lists/specs/Lines.antt eap_login_main/src/main.rt tuvaddri_c/src/lib.rt; do
        rm -rf "$copy/out"
        write_dist
        echo >>"$copy/crates/$change"
        login replay
        says "eap_login: dist/ was made of other sources: $anew"
        ends 0 'unchecked words: replay' "eap_login of a dist/ of other sources ($change)"
    done
    told="1 dist/check: dist/ was made of other sources: $anew"
    checks "$text"
fi
