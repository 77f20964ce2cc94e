# Completion of debvote for fish.
set -l all count steps check explain standing verify picture help

complete -c debvote -f
complete -c debvote -n "not __fish_seen_subcommand_from $all" -a count -d "Count the ballots and print the result sheet"
complete -c debvote -n "not __fish_seen_subcommand_from $all" -a steps -d "Print the reply to each ballot"
complete -c debvote -n "not __fish_seen_subcommand_from $all" -a check -d "Check a poll file"
complete -c debvote -n "not __fish_seen_subcommand_from $all" -a explain -d "Report every problem in a poll and its ballots"
complete -c debvote -n "not __fish_seen_subcommand_from $all" -a standing -d "Print the ballot that counts of each elector"
complete -c debvote -n "not __fish_seen_subcommand_from $all" -a verify -d "Compare a published sheet with a new count"
complete -c debvote -n "not __fish_seen_subcommand_from $all" -a picture -d "Print the outcome as a graph for Graphviz"
complete -c debvote -n "not __fish_seen_subcommand_from $all" -a help -d "Print the help of the program or of a command"
complete -c debvote -n "not __fish_seen_subcommand_from $all" -l version -d "Print the version"
complete -c debvote -n "__fish_seen_subcommand_from help" -a "$all"

set -l of_poll count steps check explain standing verify picture
set -l of_ballots count steps explain standing verify picture
set -l of_sheet verify
set -l of_desks count verify picture
set -l of_casting count picture
complete -c debvote -n "__fish_seen_subcommand_from $of_poll" -l poll -r -F -d "The poll file, in TOML"
complete -c debvote -n "__fish_seen_subcommand_from $of_ballots" -l ballots -r -F -d "The ballot file"
complete -c debvote -n "__fish_seen_subcommand_from $of_sheet" -l sheet -r -F -d "The result sheet"
complete -c debvote -n "__fish_seen_subcommand_from $of_desks" -l desks -x -a "1 2 3 4 5 6 7 8" -d "How many desks enter ballots at once"
complete -c debvote -n "__fish_seen_subcommand_from $of_casting" -l casting -x -d "The option that the casting vote chooses in a tie"
complete -c debvote -l help -d "Print help"
