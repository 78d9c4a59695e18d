#compdef mcf
# zsh completion for mcf: zsh reads it as _mcf from a folder of its $fpath.
_mcf() {
    local context state state_descr line
    typeset -A opt_args
    local -a commands=(
        'solve:solve a problem, and print its answer'
        'session:keep a problem open for commands, and answer each'
        'check:check the answer of a problem'
        'help:print help'
    )
    local -a help=('(- *)'{-h,--help}'[print help]')
    _arguments -C $help '(- *)'{-V,--version}'[print the version]' '1: :->command' '*:: :->words' && return
    case $state in
        command) _describe command commands ;;
        words)
            case $line[1] in
                solve) _arguments $help '--proof[print the potentials too]' ':problem:_files' ;;
                session) _arguments $help '--extra[how many arcs can be added]:number:' ':problem:_files' ;;
                check) _arguments $help ':problem:_files' ':answer:_files' ;;
                help) _arguments ':command:(solve session check help)' ;;
            esac
            ;;
    esac
}
if [ "$funcstack[1]" = _mcf ]; then
    _mcf "$@"
else
    compdef _mcf mcf
fi
