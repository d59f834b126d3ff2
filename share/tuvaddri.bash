# bash completion of tuvaddri: its words, and behind one of them files.

_tuvaddri() {
    COMPREPLY=()
    [ "$COMP_CWORD" != 1 ] ||
        mapfile -t COMPREPLY < <(compgen -W 'why page chart capture-of by-station decode-fields keys-of' -- "${COMP_WORDS[1]}")
}
complete -o default -F _tuvaddri tuvaddri
