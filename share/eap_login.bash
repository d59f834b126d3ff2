# bash completion of eap_login: its forms, and for pcap the kinds of methods.

_eap_login() {
    local word=${COMP_WORDS[COMP_CWORD]} choices='' forms='' kinds=''
    # made: bash-words
    forms='replay decode keys check pcap radius bulk peer server' kinds='47 51'
    # end of made
    case $COMP_CWORD,${COMP_WORDS[1]} in
    1,*) choices=$forms ;;
    2,replay) choices=names ;;
    *,pcap) [ $(((COMP_CWORD - 2) % 3)) != 1 ] || choices=$kinds ;;
    esac
    COMPREPLY=()
    # (after < bash completes the name of a file by itself)
    [ -z "$choices" ] || mapfile -t COMPREPLY < <(compgen -W "$choices" -- "$word")
}
complete -o default -F _eap_login eap_login eap_login-unchecked
