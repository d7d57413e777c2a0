# Completes the words of radpolicy-page in bash.
_radpolicy_page() {
    local word=${COMP_WORDS[COMP_CWORD]}
    local IFS=$' \t\n'
    COMPREPLY=()
    if [[ $word == -* ]]; then
        COMPREPLY=($(compgen -W '-f --record --server --hex --acct -i -S --authenticator --policy --reply --control --zone -o \
            --force --show-secrets --hide -D --help' -- "$word"))
    else
        # bash takes the `=` of an option for a word of its own.
        [[ $word == = ]] && word=
        IFS=$'\n'
        COMPREPLY=($(compgen -f -- "$word"))
    fi
}
complete -o filenames -F _radpolicy_page radpolicy-page
