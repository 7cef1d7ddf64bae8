# Completes the words of plasma in bash: read from a folder of completions, or by `source completions/plasma.bash`.
_plasma() {
    local word=${COMP_WORDS[COMP_CWORD]} words=''
    COMPREPLY=()
    case $COMP_CWORD in
        1) words='replay brief make verify init wallet operator watcher hss audit archive --help --version --where' ;;
        2)
            case ${COMP_WORDS[1]} in
                init) words='wallet operator watcher' ;;
                hss) words='init sign verify' ;;
            esac
            ;;
        6) [ "${COMP_WORDS[1]} ${COMP_WORDS[2]}" != 'init wallet' ] || words='5 6' ;;
        7) [ "${COMP_WORDS[1]} ${COMP_WORDS[2]}" != 'init wallet' ] || words='3 4' ;;
    esac
    # (behind < and > bash completes names of files by itself)
    mapfile -t COMPREPLY < <(compgen -W "$words" -- "$word")
}
complete -F _plasma plasma
