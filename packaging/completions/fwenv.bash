# Completion of fwenv's command line for bash: commands, options, files, and the names of variables after printenv, setenv, run and check.
# shellcheck shell=bash

# Offers the names of the variables in the configuration, or the text, that the command line names. They are what a dump has: none is
# expanded, each is quoted, and one that begins like an option is none.
_fwenv_names() {
    local at words=(printenv) text=() name quoted
    for ((at = 1; at < COMP_CWORD; at++)); do
        case ${COMP_WORDS[at]} in
            -c) words+=(-c "${COMP_WORDS[at + 1]}") ;;
            --big-endian) words+=(--big-endian) ;;
            --env | --env-source | --env-plain | --size) text+=("${COMP_WORDS[at]}" "${COMP_WORDS[at + 1]}") ;;
        esac
    done
    if [ ${#text[@]} != 0 ]; then words=(run "${text[@]}" -e printenv); fi
    while IFS= read -r name; do
        printf -v quoted %q "$name"
        if [[ $name == "$word"* || $quoted == "$word"* ]]; then COMPREPLY+=("$quoted"); fi
    done < <(timeout 1 "${COMP_WORDS[0]}" "${words[@]}" 2>/dev/null | sed -n 's/^\([^=-][^=]*\)=.*/\1/p')
}

_fwenv() {
    local word=${COMP_WORDS[COMP_CWORD]} before=${COMP_WORDS[COMP_CWORD - 1]} command='' at
    local commands='printenv setenv import export restore status find image run boot check session help'
    local options='-c --default --need-copy --big-endian -h --help'
    local codes='carriage-return backslashes syntax joined-lines loose-operators apostrophes backslashes-in-quotes underscored-names'
    codes+=' other-shell unknown-command exit many-words and-or if-status loop-status stale-status wrong-use test-operator run-undefined run-unknown'
    codes+=' empty-value hidden-assignment empty-assignment quoted-for reserved-words-of-for undefined-name reread-value no-variable no-script value-type'
    local dry_run=' --shell --stubs --board --steps --depth --word --output --env --env-source --env-plain --size'
    for ((at = 1; at < COMP_CWORD; at++)); do
        case " $commands " in *" ${COMP_WORDS[at]} "*)
            command=${COMP_WORDS[at]}
            break
            ;;
        esac
    done
    compopt +o default
    COMPREPLY=()
    case $command$before in
        image--output)
            compopt -o default
            return
            ;;
        image--copies)
            mapfile -t COMPREPLY < <(compgen -W '1 2' -- "$word")
            return
            ;;
    esac
    case $before in
        -c | --default | --stubs | --board | --known | --env | --env-source | --env-plain | -s | -f)
            compopt -o default
            return
            ;;
        --shell)
            mapfile -t COMPREPLY < <(compgen -W 'board strict' -- "$word")
            return
            ;;
        --format)
            mapfile -t COMPREPLY < <(compgen -W 'text gcc json' -- "$word")
            return
            ;;
        --copy)
            mapfile -t COMPREPLY < <(compgen -W '1 2' -- "$word")
            return
            ;;
        --ignore)
            mapfile -t COMPREPLY < <(compgen -W "$codes" -- "$word")
            return
            ;;
        --steps | --depth | --word | --output | --size | --boots | --resets | --stored | --ways | -e) return ;;
    esac
    case $command in
        '') options="$commands --big-endian -h --help -V --version" ;;
        printenv) options+=' --copy -n' ;;
        export) options+=' --copy' ;;
        setenv) options+=' -s --overwrite' ;;
        import | restore) options+=' --overwrite' ;;
        status) options='-c --big-endian -h --help' ;;
        find) options='-h --help' ;;
        image) options='--env --env-source --env-plain --size --copies --both --output --big-endian -h --help' ;;
        run) options+="$dry_run --write --overwrite --boots --resets --must-boot --trace -e -f" ;;
        boot) options+="$dry_run --copy --boots --resets --bootcount --after --cuts --stored --ways --dot" ;;
        check) options='-c --default --big-endian -h --help --shell --stubs --board --known --ignore --strict --all --format --env --env-source --env-plain --size -f' ;;
        session) options+="$dry_run --write --overwrite --boots --resets" ;;
        help) options=$commands ;;
    esac
    case $command:$word in
        printenv:[^-]* | printenv: | setenv:[^-]* | setenv: | run:[^-]* | run: | check:[^-]* | check:) _fwenv_names ;;
        import:[^-]* | import: | restore:[^-]* | restore: | status:[^-]* | status: | find:[^-]* | find:) compopt -o default ;;
        *) mapfile -t COMPREPLY < <(compgen -W "$options" -- "$word") ;;
    esac
}

complete -o default -F _fwenv fwenv
