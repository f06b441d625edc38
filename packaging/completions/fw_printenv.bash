# Completion of the command lines of fw_printenv and fw_setenv for bash: options, files, and the names of variables.
# shellcheck shell=bash

# Offers the names of the variables in the configuration that the command line names. They are what a dump has: none is expanded, each is
# quoted, and one that begins like an option is none.
_fw_printenv_names() {
    local at words=() name quoted
    for ((at = 1; at < COMP_CWORD; at++)); do
        case ${COMP_WORDS[at]} in
            -c | --config | -l | --lock | -f | --defenv) words+=("${COMP_WORDS[at]}" "${COMP_WORDS[at + 1]}") ;;
            --big-endian) words+=(--big-endian) ;;
        esac
    done
    while IFS= read -r name; do
        printf -v quoted %q "$name"
        if [[ $name == "$word"* || $quoted == "$word"* ]]; then COMPREPLY+=("$quoted"); fi
    done < <(timeout 1 fw_printenv "${words[@]}" 2>/dev/null | sed -n 's/^\([^=-][^=]*\)=.*/\1/p')
}

_fw_printenv() {
    local word=${COMP_WORDS[COMP_CWORD]} before=${COMP_WORDS[COMP_CWORD - 1]}
    local options='-c --config -f --defenv -l --lock --big-endian -h --help -v -V --version'
    compopt +o default
    COMPREPLY=()
    case $before in
        -c | --config | -f | --defenv | -l | --lock | -s | --script)
            compopt -o default
            return
            ;;
    esac
    case ${COMP_WORDS[0]##*/} in
        fw_printenv) options+=' -n --noheader --no-header' ;;
        *) options+=' -s --script --overwrite' ;;
    esac
    case $word in
        -*) mapfile -t COMPREPLY < <(compgen -W "$options" -- "$word") ;;
        *) _fw_printenv_names ;;
    esac
}

complete -o default -F _fw_printenv fw_printenv fw_setenv
