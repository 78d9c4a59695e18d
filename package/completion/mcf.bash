# bash completion for mcf: bash-completion reads it as completions/mcf.
_mcf() {
    local word=${COMP_WORDS[COMP_CWORD]} command="" i
    for ((i = 1; i < COMP_CWORD; i++)); do
        case ${COMP_WORDS[i]} in
        solve | session | check | help)
            command=${COMP_WORDS[i]}
            break
            ;;
        esac
    done
    local words=""
    case $command in
    "") words="solve session check help -h --help -V --version" ;;
    help) words="solve session check help" ;;
    solve) words="--proof -h --help" ;;
    session) words="--extra -h --help" ;;
    check) words="-h --help" ;;
    esac
    COMPREPLY=()
    # The number of --extra is for the user to say.
    if [ "$command" = session ] && [ "${COMP_WORDS[COMP_CWORD - 1]}" = --extra ]; then
        return
    fi
    case $command,$word in
    ,* | help,* | *,-*) mapfile -t COMPREPLY < <(compgen -W "$words" -- "$word") ;;
    *) mapfile -t COMPREPLY < <(compgen -f -- "$word") ;;
    esac
}
complete -o filenames -F _mcf mcf
