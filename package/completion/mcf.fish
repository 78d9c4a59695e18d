# fish completion for mcf: fish reads it as vendor_completions.d/mcf.fish.
set -l commands solve session check help
complete -c mcf -n "not __fish_seen_subcommand_from $commands" -f
complete -c mcf -n "not __fish_seen_subcommand_from $commands" -a solve -d "Solve a problem, and print its answer"
complete -c mcf -n "not __fish_seen_subcommand_from $commands" -a session -d "Keep a problem open for commands"
complete -c mcf -n "not __fish_seen_subcommand_from $commands" -a check -d "Check the answer of a problem"
complete -c mcf -n "not __fish_seen_subcommand_from $commands" -a help -d "Print help"
complete -c mcf -n "not __fish_seen_subcommand_from $commands" -s V -l version -d "Print the version"
complete -c mcf -n "not __fish_seen_subcommand_from help" -s h -l help -d "Print help"
complete -c mcf -n "__fish_seen_subcommand_from solve" -l proof -d "Print the potentials too"
complete -c mcf -n "__fish_seen_subcommand_from session" -l extra -x -d "How many arcs can be added"
complete -c mcf -n "__fish_seen_subcommand_from help" -f -a "solve session check help"
