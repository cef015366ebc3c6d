# Completions of lumbixet(1) for bash.
_lumbixet() {
    local word=${COMP_WORDS[COMP_CWORD]} before=${COMP_WORDS[COMP_CWORD - 1]} options
    COMPREPLY=()
    if [ "$COMP_CWORD" -eq 1 ]; then
        mapfile -t COMPREPLY < <(compgen -W 'replay frame report week objects help --help --version' -- "$word")
        return
    fi
    case ${COMP_WORDS[1]} in
    replay) options='--words --json --picture --page --from --to --strict --help --version' ;;
    frame) options='--json --strict --help --version' ;;
    report) options='--profile --json --strict --help --version' ;;
    week) options='--words --json --each --picture --page --strict --help --version' ;;
    objects) options='--words --json --first --picture --page --strict --help --version' ;;
    help)
        [ "$COMP_CWORD" -ne 2 ] || mapfile -t COMPREPLY < <(compgen -W 'replay frame report week objects' -- "$word")
        return
        ;;
    *) return ;;
    esac
    if [[ ${COMP_WORDS[1]} == report && $before == --profile ]]; then
        mapfile -t COMPREPLY < <(compgen -W '1 2' -- "$word")
    elif [[ $before == --from || $before == --to || $before == --first ]]; then
        return
    elif [[ $word == -* && $before != --picture && $before != --page ]]; then
        mapfile -t COMPREPLY < <(compgen -W "$options" -- "$word")
    else
        compopt -o filenames 2>/dev/null || :
        mapfile -t COMPREPLY < <(compgen -f -- "$word")
    fi
}
complete -F _lumbixet lumbixet
