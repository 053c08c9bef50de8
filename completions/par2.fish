# Words of par2 for fish: commands, options, par files as the base, and files.
set -l program par2
set -l commands create verify repair purge undo redo

complete -c $program -f
complete -c $program -n "not __fish_seen_subcommand_from $commands" -a create -d "protect files by recovery volumes"
complete -c $program -n "not __fish_seen_subcommand_from $commands" -a verify -d "say which files are complete"
complete -c $program -n "not __fish_seen_subcommand_from $commands" -a repair -d "give the files of a set back"
complete -c $program -n "not __fish_seen_subcommand_from $commands" -a purge -d "remove the par files of a complete set"
complete -c $program -n "not __fish_seen_subcommand_from $commands" -a undo -d "take the last command back"
complete -c $program -n "not __fish_seen_subcommand_from $commands" -a redo -d "do again what was taken back"
complete -c $program -n "__fish_seen_subcommand_from create" -s s -x -d "bytes of a slice, a multiple of 4"
complete -c $program -n "__fish_seen_subcommand_from create" -s c -x -d "number of recovery slices"
complete -c $program -n "__fish_seen_subcommand_from create" -s f -x -d "exponent of the first recovery slice"
complete -c $program -n "__fish_seen_subcommand_from create" -l overwrite -d "replace outputs that exist"
complete -c $program -n "__fish_seen_subcommand_from repair" -s p -d "purge after the repair"
complete -c $program -n "__fish_seen_subcommand_from create verify repair purge" -a "*.par2" -d "par file"
complete -c $program -n "__fish_seen_subcommand_from create verify repair" -F
