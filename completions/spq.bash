# Bash completion for spq.
_spq() {
    local word=$2 before=$3 commands='select check terms' command=''
    local it
    for it in "${COMP_WORDS[@]:1:COMP_CWORD-1}"; do
        case $it in
            select | check | terms) command=$it; break ;;
        esac
    done
    COMPREPLY=()
    case $before in
        '<') compopt -o filenames 2> /dev/null; mapfile -t COMPREPLY < <(compgen -f -- "$word"); return ;;
        --query | --piece | --rows) return ;;
        --workers) mapfile -t COMPREPLY < <(compgen -W '1 2 4 8 16 32 64' -- "$word"); return ;;
    esac
    case $command in
        '') mapfile -t COMPREPLY < <(compgen -W "$commands --help --version" -- "$word") ;;
        select) mapfile -t COMPREPLY < <(compgen -W '--query --rows --workers --piece' -- "$word") ;;
        *) mapfile -t COMPREPLY < <(compgen -W '--workers --piece' -- "$word") ;;
    esac
}
complete -F _spq spq
