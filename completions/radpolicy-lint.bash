# Completes the words of radpolicy-lint in bash.
_radpolicy_lint() {
    local word=${COMP_WORDS[COMP_CWORD]} before=${COMP_WORDS[COMP_CWORD - 1]}
    local IFS=$' \t\n'
    COMPREPLY=()
    if [[ $before == --format ]]; then
        COMPREPLY=($(compgen -W 'text gcc json' -- "$word"))
    elif [[ $word == -* ]]; then
        COMPREPLY=($(compgen -W '--policy -f --format --strict --hide -D --help' -- "$word"))
    else
        IFS=$'\n'
        COMPREPLY=($(compgen -f -- "$word"))
    fi
}
complete -o filenames -F _radpolicy_lint radpolicy-lint
