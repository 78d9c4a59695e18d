#compdef mcf-plan
# zsh completion for mcf-plan: zsh reads it as _mcf-plan from a folder of its $fpath.
_mcf-plan() {
    local context state state_descr line
    typeset -A opt_args
    local -a commands=(
        'plan:find a best plan, or say why there is none'
        'what-if:ask what would be if, at a prompt or from a file'
        'board:serve the what-if page on this computer alone'
        'explain:say why there is no plan'
        'check:check an answer to a problem text'
        'faults:say what is wrong with a problem text'
        'convert:write tables as a text that mcf reads'
        'ranges:say what one unit more saves'
        'sweep:say what a plan costs over values of a number'
    )
    local -a help=('(- *)'{-h,--help}'[print help]')
    local -a tables=(
        $help
        '--kind[least cost, maximum flow or assignment]:kind:(min max asn)'
        '--source[where a maximum flow starts]:node:'
        '--sink[where a maximum flow ends]:node:'
        '--surplus[what becomes of supplies that do not add up to 0]:surplus:(refuse keep)'
        '--balance[how supplies are meant]:balance:(equal at\ least at\ most)'
        '*--columns[what a column is by its name]:thing=name:'
        '--decimal[the decimal sign of the tables]:sign:(. ,)'
        '--default-cost[the cost of a unit where none stands]:cost:'
        '--round[round all numbers to so many decimals]:decimals:'
        '--encoding[the encoding of tables that are not UTF-8]:name:'
        '--time-limit[how long to wait]:seconds:'
        '*:table:_files'
    )
    _arguments -C $help '(- *)--version[print the version]' '1: :->command' '*:: :->words' && return
    case $state in
        command) _describe command commands ;;
        words)
            case $line[1] in
                plan)
                    _arguments $tables '--report[write a report with a picture]:file:_files' \
                        '--picture[write the picture alone]:file:_files' '--table[write a table]:file:_files' \
                        '--json[print it as JSON]' '--title[the title of the report]:title:'
                    ;;
                what-if) _arguments $tables '--commands[read commands from a file]:file:_files' ;;
                board) _arguments $tables '--port[the port]:port:' '--title[the title of the page]:title:' ;;
                explain) _arguments $tables '--answer[explain this answer]:file:_files' ;;
                check)
                    _arguments $help '--from[which program wrote the answer]:program:(mcf lemon glpk flows)' \
                        ':problem:_files' ':answer:_files'
                    ;;
                faults) _arguments $help ':problem:_files' ':answer:_files' ;;
                convert) _arguments $tables {-o,--output}'[write to a file]:file:_files' ;;
                ranges)
                    _arguments $tables '*--only[tell of this arc alone]:arc:' \
                        '--supplies[tell of nodes in place of arcs]' '--beside[which node changes the other way]:node:' \
                        '--json[print it as JSON]'
                    ;;
                sweep)
                    _arguments $tables '--cap[the capacity of an arc]:arc:' '--low[the lower bound of an arc]:arc:' \
                        '--cost[the cost of an arc]:arc:' '--supply[the supply of a node]:node:' \
                        '--beside[which node changes the other way]:node:' '--from[the first value]:value:' \
                        '--to[the last value]:value:' '--step[from value to value]:value:' \
                        '--values[these values in place of a row]:values:' '--chart[write a chart]:file:_files' \
                        '--table[write a table]:file:_files' '--json[print it as JSON]'
                    ;;
            esac
            ;;
    esac
}
if [ "$funcstack[1]" = _mcf-plan ]; then
    _mcf-plan "$@"
else
    compdef _mcf-plan mcf-plan
fi
