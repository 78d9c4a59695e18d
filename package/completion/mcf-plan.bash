# bash completion for mcf-plan: bash-completion reads it as completions/mcf-plan.
_mcf_plan() {
    local word=${COMP_WORDS[COMP_CWORD]} before=${COMP_WORDS[COMP_CWORD - 1]} command="" words="" i
    local tables="-h --help --kind --source --sink --surplus --balance --columns --decimal --default-cost --round"
    tables+=" --encoding --time-limit"
    local commands="plan what-if board explain check faults convert ranges sweep"
    for ((i = 1; i < COMP_CWORD; i++)); do
        if [[ " $commands " == *" ${COMP_WORDS[i]} "* ]]; then
            command=${COMP_WORDS[i]}
            break
        fi
    done
    COMPREPLY=()
    case $before in
    --kind) words="min max asn" ;;
    --surplus) words="refuse keep" ;;
    --decimal) words=". ," ;;
    --from) [ "$command" = sweep ] && return || words="mcf lemon glpk flows" ;;
    --balance)
        local IFS=$'\n'
        mapfile -t COMPREPLY < <(compgen -W $'equal\nat\\ least\nat\\ most' -- "$word")
        return
        ;;
    # These are for the user to say.
    --source | --sink | --columns | --default-cost | --round | --encoding | --time-limit | --title | --port | \
        --only | --beside | --cap | --low | --cost | --supply | --to | --step | --values) return ;;
    esac
    if [ -n "$words" ]; then
        mapfile -t COMPREPLY < <(compgen -W "$words" -- "$word")
        return
    fi
    case $command in
    "") words="$commands -h --help --version" ;;
    plan) words="$tables --report --picture --table --json --title" ;;
    what-if) words="$tables --commands" ;;
    board) words="$tables --port --title" ;;
    explain) words="$tables --answer" ;;
    check) words="-h --help --from" ;;
    faults) words="-h --help" ;;
    convert) words="$tables -o --output" ;;
    ranges) words="$tables --only --supplies --beside --json" ;;
    sweep)
        words="$tables --cap --low --cost --supply --beside --from --to --step --values --chart --table --json"
        ;;
    esac
    case $command,$word in
    ,* | *,-*) mapfile -t COMPREPLY < <(compgen -W "$words" -- "$word") ;;
    *) mapfile -t COMPREPLY < <(compgen -f -- "$word") ;;
    esac
}
complete -o filenames -F _mcf_plan mcf-plan
