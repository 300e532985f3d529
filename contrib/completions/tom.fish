# Completions of tom for fish: commands, options and their values, names of files.
set -l commands watch streams rewrite contain audit explain verify drill
complete -c tom -n "not __fish_seen_subcommand_from $commands" -f -a watch -d 'certain answers after each snapshot'
complete -c tom -n "not __fish_seen_subcommand_from $commands" -f -a streams -d 'watch up to 64 streams whose lines come mixed'
complete -c tom -n "not __fish_seen_subcommand_from $commands" -f -a rewrite -d 'rewritings of all pairs of brackets'
complete -c tom -n "not __fish_seen_subcommand_from $commands" -f -a contain -d 'which queries are contained in which'
complete -c tom -n "not __fish_seen_subcommand_from $commands" -f -a audit -d 'whether facts are a model of a snapshot'
complete -c tom -n "not __fish_seen_subcommand_from $commands" -f -a explain -d 'why each answer and each contradiction is one'
complete -c tom -n "not __fish_seen_subcommand_from $commands" -f -a verify -d 'whether certificates show what they say'
complete -c tom -n "not __fish_seen_subcommand_from $commands" -f -a drill -d 'watch a large made input'
complete -c tom -n '__fish_seen_subcommand_from watch' -l form -x -a 'text json' -d 'how the stream is written'
complete -c tom -n '__fish_seen_subcommand_from watch' -l report -x -a 'text json csv' -d 'how the report is written'
complete -c tom -n '__fish_seen_subcommand_from watch' -l sizes -d 'how much is kept of each query'
complete -c tom -n '__fish_seen_subcommand_from watch streams rewrite contain audit explain verify' -l owl -d 'the ontology is an OWL 2 document'
complete -c tom -n '__fish_seen_subcommand_from drill' -f
