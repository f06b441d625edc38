# Completion of fwenv's command line for fish: commands, options, files, and the names of variables after printenv, setenv, run and check.

# The names of the variables in the configuration, or the text, that the command line names.
function __fwenv_names
    set -l tokens (commandline -opc)
    set -l call printenv
    if set -l at (contains -i -- -c $tokens)
        set -a call -c $tokens[(math $at + 1)]
    end
    if contains -- --big-endian $tokens
        set -a call --big-endian
    end
    for option in --env --env-source --env-plain
        if set -l at (contains -i -- $option $tokens)
            set call run $option $tokens[(math $at + 1)] -e printenv
            if set -l at (contains -i -- --size $tokens)
                set -a call --size $tokens[(math $at + 1)]
            end
        end
    end
    timeout 1 fwenv $call 2>/dev/null | string replace -rf '^([^=-][^=]*)=.*' '$1'
end

set -l commands printenv setenv import export restore status find image run boot check session help
complete -c fwenv -f
complete -c fwenv -n "not __fish_seen_subcommand_from $commands" -a printenv -d 'Print variables'
complete -c fwenv -n "not __fish_seen_subcommand_from $commands" -a setenv -d 'Set or delete variables, and save'
complete -c fwenv -n "not __fish_seen_subcommand_from $commands" -a import -d 'Set the variables of a text, and save'
complete -c fwenv -n "not __fish_seen_subcommand_from $commands" -a export -d 'Print a text that import reads'
complete -c fwenv -n "not __fish_seen_subcommand_from $commands" -a restore -d 'Make the variables those of a text, and save'
complete -c fwenv -n "not __fish_seen_subcommand_from $commands" -a status -d 'Say what each copy is good for'
complete -c fwenv -n "not __fish_seen_subcommand_from $commands" -a find -d 'Search a dump for environments'
complete -c fwenv -n "not __fish_seen_subcommand_from $commands" -a image -d 'Make the image of a text'
complete -c fwenv -n "not __fish_seen_subcommand_from $commands" -a run -d 'Run a boot script for its own status'
complete -c fwenv -n "not __fish_seen_subcommand_from $commands" -a boot -d 'Power a board on with every answer of its hardware'
complete -c fwenv -n "not __fish_seen_subcommand_from $commands" -a check -d 'Look for faults in boot scripts'
complete -c fwenv -n "not __fish_seen_subcommand_from $commands" -a session -d 'Try boot scripts'
complete -c fwenv -n "not __fish_seen_subcommand_from $commands" -a help -d 'Print help'
complete -c fwenv -n "not __fish_seen_subcommand_from $commands" -s V -l version -d 'Print the version'
complete -c fwenv -s h -l help -d 'Print help'
complete -c fwenv -n 'not __fish_seen_subcommand_from find' -l big-endian -d 'Checksums have the highest byte first'
complete -c fwenv -n "__fish_seen_subcommand_from printenv setenv import export restore status run boot check session" -s c -rF -d 'Configuration'
complete -c fwenv -n "__fish_seen_subcommand_from printenv setenv import export restore run boot check session" -l default -rF -d 'Default environment'
complete -c fwenv -n "__fish_seen_subcommand_from printenv setenv import export restore run boot session" -l need-copy -d 'Do nothing without a good copy'
complete -c fwenv -n "__fish_seen_subcommand_from printenv export boot" -l copy -xa '1 2' -d 'One copy, which has to be good'
complete -c fwenv -n "__fish_seen_subcommand_from printenv" -s n -d 'Print the value alone'
complete -c fwenv -n "__fish_seen_subcommand_from printenv setenv run check" -a "(__fwenv_names)"
complete -c fwenv -n "__fish_seen_subcommand_from setenv" -s s -rF -d 'Script of names and values'
complete -c fwenv -n "__fish_seen_subcommand_from import restore status find" -F
complete -c fwenv -n "__fish_seen_subcommand_from run session" -l write -d 'Write back the copies that changed'
complete -c fwenv -n "__fish_seen_subcommand_from run boot check session" -l shell -xa 'board strict' -d 'Whose rules count'
complete -c fwenv -n "__fish_seen_subcommand_from setenv import restore run session" -l overwrite -d 'Write even if a copy is good in another way'
complete -c fwenv -n "__fish_seen_subcommand_from run boot check session" -l stubs -rF -d 'Stand-ins'
complete -c fwenv -n "__fish_seen_subcommand_from check" -l ignore -xa 'carriage-return backslashes syntax joined-lines loose-operators apostrophes backslashes-in-quotes underscored-names other-shell unknown-command exit many-words and-or if-status loop-status stale-status wrong-use test-operator run-undefined run-unknown empty-value hidden-assignment empty-assignment quoted-for reserved-words-of-for undefined-name reread-value no-variable no-script value-type' -d 'Kind of finding that is left out'
complete -c fwenv -n "__fish_seen_subcommand_from check" -l known -rF -d 'Names that the board sets'
complete -c fwenv -n "__fish_seen_subcommand_from check" -l strict -d 'Warnings count as errors'
complete -c fwenv -n "__fish_seen_subcommand_from check" -l all -d 'Each other script of the environment too'
complete -c fwenv -n "__fish_seen_subcommand_from check" -l format -xa 'text gcc json' -d 'How findings are printed'
complete -c fwenv -n "__fish_seen_subcommand_from run boot check session" -l board -rF -d 'What a board answers'
complete -c fwenv -n "__fish_seen_subcommand_from run boot session" -l steps -x -d 'Steps of a script'
complete -c fwenv -n "__fish_seen_subcommand_from run boot session" -l depth -x -d 'Starts inside one another'
complete -c fwenv -n "__fish_seen_subcommand_from run boot session" -l word -x -d 'Bytes of a word'
complete -c fwenv -n "__fish_seen_subcommand_from run boot session" -l output -x -d 'Bytes that a script prints'
complete -c fwenv -n "__fish_seen_subcommand_from image" -l env -rF -d 'Text with the variables'
complete -c fwenv -n "__fish_seen_subcommand_from run boot check session image" -l env-source -rF -d 'The same in the form of a source of U-Boot'
complete -c fwenv -n "__fish_seen_subcommand_from run boot check session image" -l env-plain -rF -d 'The same as plain lines'
complete -c fwenv -n "__fish_seen_subcommand_from image" -l size -x -d 'Size of a copy, in hexadecimal'
complete -c fwenv -n "__fish_seen_subcommand_from image" -l copies -xa '1 2' -d 'Copies'
complete -c fwenv -n "__fish_seen_subcommand_from image" -l both -d 'Both copies have the variables'
complete -c fwenv -n "__fish_seen_subcommand_from image" -l output -rF -d 'File of the image'
complete -c fwenv -n "__fish_seen_subcommand_from run boot check session" -l env -rF -d 'Text that is the whole environment'
complete -c fwenv -n "__fish_seen_subcommand_from run boot check session" -l size -x -d 'Size of its image, in hexadecimal'
complete -c fwenv -n "__fish_seen_subcommand_from run boot session" -l boots -x -d 'Command that does not come back'
complete -c fwenv -n "__fish_seen_subcommand_from run boot session" -l resets -x -d 'Command that resets the board'
complete -c fwenv -n "__fish_seen_subcommand_from boot" -l bootcount -d 'Power-ons are counted in the environment'
complete -c fwenv -n "__fish_seen_subcommand_from boot" -l after -rF -d 'Script that the booted system may run'
complete -c fwenv -n "__fish_seen_subcommand_from boot" -l cuts -d 'The power may fail at each save'
complete -c fwenv -n "__fish_seen_subcommand_from boot" -l stored -x -d 'Stored environments that are powered on from'
complete -c fwenv -n "__fish_seen_subcommand_from boot" -l ways -x -d 'Ways that are listed'
complete -c fwenv -n "__fish_seen_subcommand_from boot" -l dot -d 'Print a graph for Graphviz'
complete -c fwenv -n "__fish_seen_subcommand_from run" -l must-boot -d 'Status 0 only if the run ended in a boot'
complete -c fwenv -n "__fish_seen_subcommand_from run" -l trace -d 'Print each command that is run'
complete -c fwenv -n "__fish_seen_subcommand_from run" -s e -x -d 'Script'
complete -c fwenv -n "__fish_seen_subcommand_from run check" -s f -rF -d 'File of a script'
complete -c fwenv -n "__fish_seen_subcommand_from help" -a "$commands"
