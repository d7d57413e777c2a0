# Completes the words of radpolicy-walk in bash.
_radpolicy_walk() {
    local word=${COMP_WORDS[COMP_CWORD]}
    local IFS=$' \t\n'
    COMPREPLY=()
    if [[ $word == -* ]]; then
        COMPREPLY=($(compgen -W '-f --record --server --policy --hex -S --acct --reply --control --zone --script --show-secrets --hide
            -D --help' -- "$word"))
    else
        # bash takes the `=` of an option for a word of its own.
        [[ $word == = ]] && word=
        IFS=$'\n'
        COMPREPLY=($(compgen -f -- "$word"))
    fi
}
complete -o filenames -F _radpolicy_walk radpolicy-walk
