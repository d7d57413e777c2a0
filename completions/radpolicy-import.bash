# Completes the words of radpolicy-import in bash.
_radpolicy_import() {
    local word=${COMP_WORDS[COMP_CWORD]}
    local IFS=$' \t\n'
    COMPREPLY=()
    if [[ $word == -* ]]; then
        COMPREPLY=($(compgen -W '--server --section --policy --module --dict --write-dictionary --dictionary
            --stub-functions -o --map --initial --initial-template --force --plain --papers --check --strict --json --hide
            --show-secrets --help' -- "$word"))
    else
        # bash takes the `=` of an option for a word of its own.
        [[ $word == = ]] && word=
        IFS=$'\n'
        COMPREPLY=($(compgen -f -- "$word"))
    fi
}
complete -o filenames -F _radpolicy_import radpolicy-import
