# Completion of the command lines of fw_printenv and fw_setenv for fish: options, files, and the names of variables.

# The names of the variables in the configuration that the command line names.
function __fw_printenv_names
    set -l tokens (commandline -opc)
    set -l call
    for at in (seq 2 (count $tokens))
        switch $tokens[$at]
            case -c --config -f --defenv -l --lock
                set -a call $tokens[$at] $tokens[(math $at + 1)]
            case '-c*' '-f*' '-l*' '--config=*' '--defenv=*' '--lock=*' --big-endian
                set -a call $tokens[$at]
        end
    end
    timeout 1 fw_printenv $call 2>/dev/null | string replace -rf '^([^=-][^=]*)=.*' '$1'
end

for name in fw_printenv fw_setenv
    complete -c $name -f -a '(__fw_printenv_names)'
    complete -c $name -s c -l config -rF -d Configuration
    complete -c $name -s f -l defenv -rF -d 'Default environment'
    complete -c $name -s l -l lock -xa '(__fish_complete_directories)' -d 'Folder of the lock file'
    complete -c $name -l big-endian -d 'Checksums have the highest byte first'
    complete -c $name -s h -l help -d 'Print help'
    complete -c $name -s v -s V -l version -d 'Print the version'
end
complete -c fw_printenv -s n -l noheader -l no-header -d 'Print the values alone'
complete -c fw_setenv -s s -l script -rF -d 'Script of names and values'
complete -c fw_setenv -l overwrite -d 'Write even if a copy is good in another way'
