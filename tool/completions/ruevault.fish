# Completion of ruevault for fish.
set -l commands read show check proof rests help
complete -c ruevault -n "not __fish_seen_subcommand_from $commands" -f -a read -d 'write the sheet of a text'
complete -c ruevault -n "not __fish_seen_subcommand_from $commands" -f -a show -d 'print a text or a sheet in words'
complete -c ruevault -n "not __fish_seen_subcommand_from $commands" -f -a check -d 'print messages only'
complete -c ruevault -n "not __fish_seen_subcommand_from $commands" -f -a proof -d 'write a page to look a text through'
complete -c ruevault -n "not __fish_seen_subcommand_from $commands" -f -a rests -d 'print the rests of a hole'
complete -c ruevault -n "not __fish_seen_subcommand_from $commands" -f -a help -d 'print what a command does'
complete -c ruevault -s h -l help -d 'print what a command does'
complete -c ruevault -n "not __fish_seen_subcommand_from $commands" -s V -l version -d 'print the version'
complete -c ruevault -n '__fish_seen_subcommand_from read proof' -s o -l output -r -d 'what to write'
complete -c ruevault -n '__fish_seen_subcommand_from show check' -l json -d 'one JSON object for each text'
complete -c ruevault -n '__fish_seen_subcommand_from check' -l all -d 'all places of lost tokens'
complete -c ruevault -n '__fish_seen_subcommand_from help' -f -a "$commands"
