# Bash completion for spq-part.
_spq_part() {
    local words=''
    case $COMP_CWORD:${COMP_WORDS[1]} in
        1:*) words='split count repeated again first keep needed unseal plan merge --version' ;;
        2:split) words='check terms subject graph' ;;
        2:plan) words='lines subject graph graph-with-default' ;;
        2:merge) words='all distinct' ;;
    esac
    mapfile -t COMPREPLY < <(compgen -W "$words" -- "$2")
}
complete -F _spq_part spq-part
