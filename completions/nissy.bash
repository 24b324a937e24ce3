# Completion of nissy's commands and step names in bash. Moves and numbers are the user's own, and files stand only after < and >.
_nissy() {
    local word=${COMP_WORDS[COMP_CWORD]} words=
    # there bash offers them by itself
    if [[ ${COMP_WORDS[COMP_CWORD - 1]} == *[\<\>]* ]]; then
        compopt -o default
        return
    fi
    case $COMP_CWORD:${COMP_WORDS[1]} in
        1:*) words="invert unniss cleanup print solve count near scramble steps" ;;
        2:solve | 2:count | 2:near) words="eofb eorl eoud drud-eofb drrl-eofb drud-eorl drfb-eorl drrl-eoud drfb-eoud eo dr-eofb dr-eorl dr-eoud" ;;
    esac
    # shellcheck disable=SC2207 # no name has a blank or a sign of the shell in it
    COMPREPLY=($(compgen -W "$words" -- "$word"))
}
complete -F _nissy nissy
