# What bash offers for the words typed so far. command/tests/run reads this file.
# shellcheck shell=bash disable=SC2154,SC2034

# shellcheck source=/dev/null
. "$top/command/completion.bash"

# OFFERED, WORDS..: what is offered for the last of the words.
offers() {
    local offered=$1
    shift
    COMP_WORDS=(lumbixet "$@") COMP_CWORD=$#
    _lumbixet
    tried=$((tried + 1))
    [ "${COMPREPLY[*]}" = "$offered" ] || fault "completion of '$*'" "it offers '${COMPREPLY[*]}', not '$offered'"
}
offers 'replay report' re
offers 'week' w
offers '--help --version' --
offers '--words' replay --w
offers '--json' frame --j
offers '' report --w
offers '--picture --page' week --p
offers '' week --pr
offers 'replay report' help re
offers '' replay --from ''
offers '--profile' report --p
offers '1 2' report --profile ''
offers '' frame --p
offers '--json' week --j
offers 'seven.trace' replay --words seven.t
offers 'good.report' report good
offers '' play s

# Every option that is offered is accepted, and every option of the help is offered.
for name in replay frame report week objects; do
    COMP_WORDS=(lumbixet "$name" --) COMP_CWORD=2
    _lumbixet
    for option in "${COMPREPLY[@]}"; do
        run ./lumbixet "$name" "$option" </dev/null
        holds "$name $option is offered" 'unknown option' err not
    done
    while read -r option; do
        tried=$((tried + 1))
        [[ " ${COMPREPLY[*]} " == *" $option "* ]] || fault "completion of '$name --'" "it does not offer $option"
    done < <(./lumbixet "$name" --help | grep '^  -' | grep -o -e '--[a-z]*' | sort -u)
done
